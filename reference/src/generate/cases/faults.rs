//! Families of good cases in which one or more values are out of range.

use super::networks::{small_expand, small_observe, small_reinforce};
use super::sketch::{self, empty, plain_line, uniform_sheet, unit};
use crate::generate::random::Random;
use crate::harness::tables::Case;

/// Values that no figure of a table may have.
const NEVER: [f64; 4] = [f64::NAN, -f64::NAN, f64::NEG_INFINITY, -1.0];

/// A small case of any mode with at least two levels, a unit and a corridor.
fn good(random: &mut Random) -> Case {
    let make = random.pick(&[small_expand, small_reinforce, small_observe]);
    loop {
        let case = make(random);
        if case.ladder.len() > 1 && !case.generators.is_empty() && !case.corridors.is_empty() {
            return case;
        }
    }
}

fn spoil_ladder(random: &mut Random, case: &mut Case) {
    let levels = case.ladder.len();
    let i = random.below(levels);
    let upper = random.below(levels - 1);
    let next = case.ladder[upper + 1];
    match random.below(5) {
        0 => case.ladder[i] = random.pick(&[0.0, -0.0, f64::INFINITY, -5e-324]),
        1 => case.ladder[i] = random.pick(&NEVER),
        2 => case.ladder[0] = 10_000f64.next_up(),
        // Too little above the next, by the least that can be told.
        3 => case.ladder[upper] = random.pick(&[next + 1e-6, next, next + 9e-7]),
        _ => case.ladder.swap(upper, upper + 1),
    }
}

fn spoil_bus(random: &mut Random, case: &mut Case) {
    let place = random.below(case.buses.len());
    let requested = case.requested() as u8;
    match random.below(3) {
        0 => case.buses[place].tier = random.pick(&[requested, requested + 1, 255]),
        1 => case.buses[place].reading = random.pick(&NEVER),
        _ => case.buses[place].reading = random.pick(&[1e6f64.next_up(), f64::INFINITY, -5e-324]),
    }
}

fn spoil_generator(random: &mut Random, case: &mut Case) {
    let buses = case.buses.len() as u16;
    let place = random.below(case.generators.len());
    let g = &mut case.generators[place];
    match random.below(9) {
        0 => g.bus = random.pick(&[buses, buses + 1, u16::MAX]),
        1 => g.pmin = random.pick(&NEVER),
        2 => g.pmin = random.pick(&[g.pmax + 1.0, -5e-324]),
        3 => g.pmax = random.pick(&NEVER),
        4 => g.pmax = 1e6f64.next_up(),
        5 => g.c1 = random.pick(&NEVER),
        6 => g.c1 = random.pick(&[1e6f64.next_up(), f64::INFINITY, -5e-324]),
        7 => g.c2 = random.pick(&NEVER),
        _ => g.c2 = random.pick(&[f64::INFINITY, -5e-324]),
    }
}

fn spoil_corridor(random: &mut Random, case: &mut Case) {
    let buses = case.buses.len() as u16;
    let place = random.below(case.corridors.len());
    let c = &mut case.corridors[place];
    match random.below(8) {
        0 => c.a = random.pick(&[buses, u16::MAX]),
        1 => c.b = random.pick(&[buses, u16::MAX]),
        2 => c.b = c.a,
        3 => c.circuits = random.pick(&[65, 255]),
        4 => c.length = random.pick(&NEVER),
        5 => c.length = random.pick(&[10_000f64.next_up(), f64::INFINITY, -5e-324]),
        6 => c.share = random.pick(&NEVER),
        _ => c.share = random.pick(&[0.5f64.next_down(), 1f64.next_up(), 0.0, f64::INFINITY]),
    }
}

fn spoil_row(random: &mut Random, case: &mut Case) {
    let place = random.below(case.sheet.len());
    let row = &mut case.sheet[place];
    match random.below(8) {
        0 => row.r = random.pick(&NEVER),
        1 => row.r = random.pick(&[f64::INFINITY, -5e-324]),
        2 => row.x = random.pick(&NEVER),
        3 => row.x = random.pick(&[0.0, -0.0, f64::INFINITY, -5e-324]),
        4 => row.b = random.pick(&NEVER),
        5 => row.b = random.pick(&[f64::INFINITY, -5e-324]),
        6 => row.rate = random.pick(&NEVER),
        _ => row.rate = random.pick(&[0.001f64.next_down(), 1e6f64.next_up(), 0.0, f64::INFINITY]),
    }
}

fn spoiled(random: &mut Random, spoil: fn(&mut Random, &mut Case)) -> Case {
    let mut case = good(random);
    for _ in 0..random.from_to(1, 2) {
        spoil(random, &mut case);
    }
    case
}

pub fn ladder(random: &mut Random) -> Case {
    spoiled(random, spoil_ladder)
}

pub fn bus(random: &mut Random) -> Case {
    spoiled(random, spoil_bus)
}

pub fn generator(random: &mut Random) -> Case {
    spoiled(random, spoil_generator)
}

pub fn corridor(random: &mut Random) -> Case {
    spoiled(random, spoil_corridor)
}

pub fn sheet_row(random: &mut Random) -> Case {
    spoiled(random, spoil_row)
}

/// Faults of several kinds: the order of the refusals decides.
pub fn several(random: &mut Random) -> Case {
    let mut case = good(random);
    for _ in 0..random.from_to(2, 4) {
        let all = [
            spoil_ladder,
            spoil_bus,
            spoil_generator,
            spoil_corridor,
            spoil_row,
        ];
        random.pick(&all)(random, &mut case);
    }
    case
}

/// Islands of two buses with units whose costs overflow, laid out so that the
/// leaders and the units are in different orders; some have no 8, some would
/// have 9 besides.
pub fn costs_of_islands(random: &mut Random) -> Case {
    let islands = random.from_to(2, 5);
    let names = random.shuffled(2 * islands);
    let mode = random.pick(&[0, 1, 2]);
    let mut case = empty(mode, vec![138.0], 0);
    case.buses = vec![sketch::bus(0, 0.0); 2 * islands];
    for i in 0..islands {
        let (a, b) = (names[2 * i], names[2 * i + 1]);
        case.corridors.push(sketch::corridor(a, b));
        case.buses[a].reading = random.between(0.0, 100.0);
        for _ in 0..random.from_to(1, 3) {
            let mut g = unit(random.pick(&[a, b]), random.between(50.0, 150.0));
            g.c2 = random.pick(&[0.01, 0.01, 1e306, f64::MAX]);
            g.pmin = random.pick(&[0.0, 0.0, g.pmax]);
            case.generators.push(g);
        }
    }
    let order = random.shuffled(case.generators.len());
    case.generators = order.into_iter().map(|i| case.generators[i]).collect();
    uniform_sheet(&mut case, plain_line(0.1, 100.0));
    if random.once_in(3) {
        case.sheet[0].x = 1e-200;
    }
    case
}
