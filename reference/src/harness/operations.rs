//! The single operations: their refusals in document 01's order, then the
//! published code.

use crate::electrical::branches::transformer_impedance;
use crate::electrical::generators::DraftGenerator;
use crate::electrical::planning::{dc_angles_cg, economic_dispatch, Solve};
use crate::electrical::reactive::place_voltage_support;
use crate::geom::delaunay::UnionFind;
use crate::harness::checks::{
    costs_are_finite, demand_is_good, ends_are_good, length_is_good, load_is_good, unit_is_good,
    Unit,
};
use crate::harness::figures::{one_nan, NAN_BITS};
use crate::harness::refusal::{
    count_at_most, first_fault, Refusal, BUS, CORRIDOR, GENERATOR, NOT_FINITE, PLACE_OF_ANGLES,
    RATING,
};
use crate::harness::tables::{MOST_BUSES, MOST_CORRIDORS, MOST_GENERATORS};
use crate::site::DraftBus;
use crate::topology::Corridor;

/// Square root by the hardware, on bits.
pub fn square_root(bits: u64) -> u64 {
    let v = f64::from_bits(bits);
    if v < 0.0 {
        NAN_BITS
    } else {
        one_nan(v.sqrt().to_bits())
    }
}

/// Resistance and reactance of a bank.
pub fn impedance(mva: f64) -> Result<(f64, f64), Refusal> {
    if !(mva.is_finite() && mva > 0.0) {
        return Err(Refusal::new(RATING, 0));
    }
    Ok(transformer_impedance(mva))
}

/// The leader of each bus, with no refusal: planning uses it too.
pub fn leaders(buses: usize, ends: impl Iterator<Item = (usize, usize)>) -> Vec<usize> {
    let mut sets = UnionFind::new(buses);
    for (a, b) in ends {
        sets.union(a, b);
    }
    (0..buses).map(|i| sets.find(i)).collect()
}

/// The leader of each bus.
pub fn accepted_leaders(buses: usize, ends: &[(usize, usize)]) -> Result<Vec<usize>, Refusal> {
    count_at_most(buses, MOST_BUSES)?;
    count_at_most(ends.len(), MOST_CORRIDORS)?;
    first_fault(CORRIDOR, ends, |&(a, b)| !ends_are_good(a, b, buses))?;
    Ok(leaders(buses, ends.iter().copied()))
}

/// The MW of each unit.
pub fn dispatch(units: &[Unit], demand: f64) -> Result<Vec<f64>, Refusal> {
    count_at_most(units.len(), MOST_GENERATORS)?;
    first_fault(GENERATOR, units, |unit| !unit_is_good(unit))?;
    if !demand_is_good(demand) {
        return Err(Refusal::new(GENERATOR, 0));
    }
    costs_are_finite(units, demand)?;
    Ok(economic_dispatch(units, demand))
}

/// What the angles operation is asked.
pub struct Network {
    pub edges: Vec<(usize, usize, f64)>,
    pub injection: Vec<f64>,
    pub grounds: Vec<usize>,
    pub guess: Option<Vec<f64>>,
}

/// The angles, how often they were moved, and how the solve ended.
pub fn angles(network: &Network) -> Result<Solve, Refusal> {
    let Network {
        edges,
        injection,
        grounds,
        guess,
    } = network;
    let buses = injection.len();
    count_at_most(buses, MOST_BUSES)?;
    count_at_most(edges.len(), MOST_CORRIDORS)?;
    count_at_most(grounds.len(), MOST_BUSES)?;
    first_fault(PLACE_OF_ANGLES, edges, |&(a, b, _)| {
        a >= buses || b >= buses
    })?;
    first_fault(PLACE_OF_ANGLES, grounds, |&ground| ground >= buses)?;
    let solve = dc_angles_cg(buses, edges, injection, grounds, guess.as_deref());
    first_fault(NOT_FINITE, &solve.angles, |angle| !angle.is_finite())?;
    Ok(solve)
}

/// What placement is asked.
pub struct Support {
    /// Reading and weight of each bus.
    pub buses: Vec<(f64, f64)>,
    /// Two ends and a length, km.
    pub corridors: Vec<(usize, usize, f64)>,
    pub generator_buses: Vec<usize>,
}

/// The condensers: bus and Mvar, in the order they were placed.
pub fn placement(support: &Support) -> Result<Vec<(usize, f64)>, Refusal> {
    let Support {
        buses: loads,
        corridors,
        generator_buses,
    } = support;
    let buses = loads.len();
    count_at_most(buses, MOST_BUSES)?;
    count_at_most(corridors.len(), MOST_CORRIDORS)?;
    count_at_most(generator_buses.len(), MOST_GENERATORS)?;
    first_fault(BUS, loads, |&(reading, weight)| {
        !load_is_good(reading, weight)
    })?;
    first_fault(GENERATOR, generator_buses, |&bus| bus >= buses)?;
    first_fault(CORRIDOR, corridors, |&(a, b, km)| {
        !ends_are_good(a, b, buses) || !length_is_good(km)
    })?;
    let condensers = place_voltage_support(
        &loads.iter().map(bus_with).collect::<Vec<_>>(),
        &corridors.iter().map(corridor_of).collect::<Vec<_>>(),
        &generator_buses
            .iter()
            .map(|&bus| unit_at(bus))
            .collect::<Vec<_>>(),
    );
    Ok(condensers.iter().map(|c| (c.bus, c.qmax_mvar)).collect())
}

/// A bus of which placement reads the load alone.
fn bus_with((reading, weight): &(f64, f64)) -> DraftBus {
    DraftBus {
        tier: 0,
        base_kv: 0.0,
        load_mw: reading * weight,
    }
}

/// A corridor of which placement reads the ends and the length alone.
fn corridor_of(&(a, b, length_km): &(usize, usize, f64)) -> Corridor {
    Corridor {
        a,
        b,
        kv: 0.0,
        length_km,
        circuits: 1,
        cap: 0,
    }
}

/// A unit of which placement reads the bus alone.
fn unit_at(bus: usize) -> DraftGenerator {
    DraftGenerator {
        bus,
        pmax_mw: 0.0,
        pmin_mw: 0.0,
        qmax_mvar: 0.0,
        c2: 0.0,
        c1: 0.0,
        slack: false,
        condenser: false,
    }
}
