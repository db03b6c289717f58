//! Refusals 2 to 8: what document 01 asks of the tables, in its order. Every
//! comparison is written so that a NaN is a fault.

use crate::harness::refusal::{
    count_at_most, first_fault, Refusal, BUS, CORRIDOR, COST, COUNT, GENERATOR, LADDER, SHEET_ROW,
};
use crate::harness::tables::{
    Bus, Case, CorridorRecord, Generator, Line, MOST_BUSES, MOST_CORRIDORS, MOST_GENERATORS,
    MOST_LEVELS, MOST_TARGET,
};
use crate::watch::{seen_if, Branch};

/// A unit as dispatch takes it: pmin, pmax, c1, c2.
pub type Unit = (f64, f64, f64, f64);

const MOST_KV: f64 = 10_000.0;
const LEAST_STEP_KV: f64 = 1e-6;
pub const MOST_MW: f64 = 1e6;
/// A reading's weight (document 02, K6).
pub const MOST_WEIGHT: f64 = 1_000.0;
const MOST_LINEAR_COST: f64 = 1e6;
const MOST_DEMAND: f64 = 1e9;
const MOST_CIRCUITS: u8 = 64;
/// A corridor's own cap (document 02, K5).
pub const MOST_CAP: u8 = 6;
const MOST_LENGTH_KM: f64 = 10_000.0;
const LEAST_SHARE: f64 = 0.5;
const LEAST_SPREAD: f64 = 0.25;
const MOST_SPREAD: f64 = 4.0;
const LEAST_RATE: f64 = 0.001;
const MOST_RATE: f64 = 1e6;

fn within(v: f64, least: f64, most: f64) -> bool {
    least <= v && v <= most
}

fn finite_from_zero(v: f64) -> bool {
    v.is_finite() && v >= 0.0
}

/// A reading, its weight and their product (document 02, K6).
pub fn load_is_good(reading: f64, weight: f64) -> bool {
    let load = reading * weight;
    let good = within(reading, 0.0, MOST_MW)
        && 0.0 < weight
        && weight <= MOST_WEIGHT
        && within(load, 0.0, MOST_MW);
    watch_load(reading, weight, load, good);
    good
}

/// Counts why a load is refused, or what is at the edge of one that is not.
fn watch_load(reading: f64, weight: f64, load: f64, good: bool) {
    let reading_good = within(reading, 0.0, MOST_MW);
    let weight_good = 0.0 < weight && weight <= MOST_WEIGHT;
    let why = [
        (reading.is_nan(), Branch::ReadingNoNumber),
        (reading < 0.0, Branch::ReadingBelow),
        (reading > MOST_MW, Branch::ReadingAbove),
        (reading_good && weight.is_nan(), Branch::WeightNoNumber),
        (reading_good && weight == 0.0, Branch::WeightZero),
        (reading_good && weight < 0.0, Branch::WeightBelow),
        (reading_good && weight > MOST_WEIGHT, Branch::WeightAbove),
        (reading_good && weight_good && !good, Branch::ProductAbove),
    ];
    let edge = [
        (
            reading == 0.0 && reading.is_sign_negative(),
            Branch::ReadingMinusZero,
        ),
        (reading > 0.0 && load == 0.0, Branch::ProductUnderflows),
        (
            weight != 1.0 && load.is_subnormal(),
            Branch::ProductSubnormal,
        ),
        (weight != 1.0 && load == MOST_MW, Branch::ProductAtMost),
        (weight == MOST_WEIGHT, Branch::WeightAtMost),
        (
            weight != 1.0 && weight.fract() != 0.0 && load > 0.0,
            Branch::ProductWorkedOut,
        ),
    ];
    for (so, branch) in if good { &edge[..] } else { &why[..] } {
        seen_if(*so, *branch);
    }
}

pub fn length_is_good(length_km: f64) -> bool {
    within(length_km, 0.0, MOST_LENGTH_KM)
}

/// An impedance spread (document 02, K8).
pub fn spread_is_good(spread: f64) -> bool {
    within(spread, LEAST_SPREAD, MOST_SPREAD)
}

/// Two different buses, both below the count of buses.
pub fn ends_are_good(a: usize, b: usize, buses: usize) -> bool {
    a < buses && b < buses && a != b
}

pub fn unit_is_good(&(pmin, pmax, c1, c2): &Unit) -> bool {
    0.0 <= pmin
        && pmin <= pmax
        && pmax <= MOST_MW
        && within(c1, 0.0, MOST_LINEAR_COST)
        && finite_from_zero(c2)
}

pub fn demand_is_good(demand: f64) -> bool {
    within(demand, 0.0, MOST_DEMAND)
}

fn level_is_good(ladder: &[f64], i: usize) -> bool {
    let kv = ladder[i];
    let above_the_next = match ladder.get(i + 1) {
        Some(next) => kv > next + LEAST_STEP_KV,
        None => true,
    };
    kv > 0.0 && kv <= MOST_KV && above_the_next
}

/// Refusal 3.
pub fn ladder_is_good(ladder: &[f64]) -> Result<(), Refusal> {
    first_fault(LADDER, 0..ladder.len(), |i| !level_is_good(ladder, i))
}

fn bus_is_good(bus: &Bus, requested: usize) -> bool {
    let tier = usize::from(bus.tier) < requested;
    seen_if(!tier, Branch::TierPastRequest);
    tier && load_is_good(bus.reading, bus.weight)
}

fn generator_is_good(g: &Generator, buses: usize) -> bool {
    usize::from(g.bus) < buses && g.slack <= 1 && unit_is_good(&unit(g))
}

fn corridor_is_good(c: &CorridorRecord, buses: usize) -> bool {
    ends_are_good(c.a.into(), c.b.into(), buses)
        && c.circuits <= MOST_CIRCUITS
        && length_is_good(c.length)
        && within(c.share, LEAST_SHARE, 1.0)
        && c.cap <= MOST_CAP
}

fn line_is_good(line: &Line) -> bool {
    finite_from_zero(line.r)
        && line.x.is_finite()
        && line.x > 0.0
        && finite_from_zero(line.b)
        && within(line.rate, LEAST_RATE, MOST_RATE)
        && line.basis <= 1
}

fn unit(g: &Generator) -> Unit {
    (g.pmin, g.pmax, g.c1, g.c2)
}

/// Planning's refusals 2 to 7; a case that passes them is accepted.
pub fn accept_case(case: &Case) -> Result<(), Refusal> {
    count_at_most(case.buses.len(), MOST_BUSES)?;
    count_at_most(case.corridors.len(), MOST_CORRIDORS)?;
    count_at_most(case.generators.len(), MOST_GENERATORS)?;
    count_at_most(case.ladder.len(), MOST_LEVELS)?;
    count_at_most(case.target as usize, MOST_TARGET)?;
    if case.above >= case.ladder.len() {
        return Err(Refusal::new(COUNT, 0));
    }
    let buses = case.buses.len();
    let requested = case.requested();
    ladder_is_good(&case.ladder)?;
    first_fault(BUS, &case.buses, |bus| !bus_is_good(bus, requested))?;
    first_fault(GENERATOR, &case.generators, |g| {
        !generator_is_good(g, buses)
    })?;
    first_fault(CORRIDOR, &case.corridors, |c| !corridor_is_good(c, buses))?;
    first_fault(SHEET_ROW, &case.sheet, |line| !line_is_good(line))
}

/// Refusal 8 of one dispatch: where the demand lies strictly between the sums,
/// the first unit whose incremental cost is not finite at one of its limits.
pub fn costs_are_finite(units: &[Unit], demand: f64) -> Result<(), Refusal> {
    let pmin: f64 = units.iter().map(|u| u.0).sum();
    let pmax: f64 = units.iter().map(|u| u.1).sum();
    if !(pmin < demand && demand < pmax) {
        return Ok(());
    }
    let incremental = |c1: f64, c2: f64, p: f64| c1 + 2.0 * c2 * p;
    first_fault(COST, units, |&(pmin, pmax, c1, c2)| {
        !incremental(c1, c2, pmin).is_finite() || !incremental(c1, c2, pmax).is_finite()
    })
}

/// Planning's refusal 8, component by component with ascending leader; the
/// index is the generator's in the case.
pub fn case_costs_are_finite(case: &Case) -> Result<(), Refusal> {
    let ends = case.corridors.iter().map(|c| (c.a.into(), c.b.into()));
    let leaders = crate::harness::operations::leaders(case.buses.len(), ends);
    let mut ascending = leaders.clone();
    ascending.sort_unstable();
    ascending.dedup();
    for leader in ascending {
        let members: Vec<usize> = (0..case.generators.len())
            .filter(|&k| leaders[usize::from(case.generators[k].bus)] == leader)
            .collect();
        let units: Vec<Unit> = members.iter().map(|&k| unit(&case.generators[k])).collect();
        let demand: f64 = (0..case.buses.len())
            .filter(|&i| leaders[i] == leader)
            .map(|i| case.buses[i].load())
            .sum();
        costs_are_finite(&units, demand)
            .map_err(|refusal| Refusal::new(COST, members[refusal.index]))?;
    }
    Ok(())
}
