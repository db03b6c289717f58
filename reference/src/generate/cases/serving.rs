//! Families in which the dispatch leaves demand unmet beside idle units, so
//! that modes 3 to 5 have something to serve. A unit is idle where its cost is
//! the greatest and does not rise with its MW, or hardly does.

use super::sketch::{bus, corridor, empty, network, plain_line, uniform_sheet, unit, Spec};
use crate::generate::random::Random;
use crate::harness::tables::{Case, Generator, MOST_GENERATORS, MOST_MODE, SERVING};

/// A family of cases in modes 3 to 5.
pub type Family = (&'static str, fn(&mut Random) -> Case);

pub const FAMILIES: &[Family] = &[
    ("idle units", idle_units),
    ("idle units of equal cost", equal_costs),
    ("idle units of nearly equal cost", nearly_equal_costs),
    ("idle units behind others at their most", behind_others),
    ("idle units, demand just between the sums", just_between),
    ("idle units of islands", of_islands),
    ("idle units, all that there may be", all_there_may_be),
    ("idle units, sums that round", sums_that_round),
    ("no unit to serve", no_unit),
];

fn mode(random: &mut Random) -> u8 {
    random.from_to(SERVING.into(), MOST_MODE.into()) as u8
}

fn spec(random: &mut Random) -> Spec {
    let buses = random.from_to(2, 10);
    Spec {
        mode: mode(random),
        buses,
        corridors: random.from_to(buses - 1, 2 * buses),
        generators: random.from_to(1, 6),
        above: random.below(2),
        requested: random.from_to(1, 2),
        load: random.pick(&[20.0, 80.0, 200.0]),
        km: 40.0,
        island_every: 40,
    }
}

/// Costs that do not rise with the MW.
fn flat(case: &mut Case) {
    for g in &mut case.generators {
        g.c2 = 0.0;
    }
}

fn some(random: &mut Random) -> Case {
    let spec = spec(random);
    let mut case = network(random, &spec);
    flat(&mut case);
    case
}

/// Whole numbers, so that some units at their most may meet the demand.
fn idle_units(random: &mut Random) -> Case {
    let mut case = some(random);
    for bus in &mut case.buses {
        bus.reading = 10.0 * random.below(4) as f64;
    }
    for g in &mut case.generators {
        g.pmin = 0.0;
        g.pmax = 10.0 * random.below(6) as f64;
        g.c1 = random.below(2) as f64;
    }
    case
}

fn equal_costs(random: &mut Random) -> Case {
    let mut case = some(random);
    for g in &mut case.generators {
        g.c1 = random.pick(&[7.0, 7.0, -0.0, 0.0]);
    }
    case
}

/// A price that is narrow to 1e-12 leaves such units between their limits.
fn nearly_equal_costs(random: &mut Random) -> Case {
    let mut case = some(random);
    for g in &mut case.generators {
        g.c1 = 20.0 - random.below(5) as f64 * random.pick(&[1e-10, 5e-11, 1e-12]);
        g.c2 = random.pick(&[0.0, 0.0, 1e-13]);
    }
    case
}

fn behind_others(random: &mut Random) -> Case {
    let mut case = some(random);
    for g in &mut case.generators {
        g.c1 = random.pick(&[1.0, 2.0, 30.0, 30.0]);
        g.c2 = random.pick(&[0.0, 0.002]);
    }
    case
}

/// Some units at two buses; the demand is the sum of their limits and a last
/// place more or less.
fn just_between(random: &mut Random) -> Case {
    let mut case = pair(random);
    for _ in 0..random.from_to(1, 5) {
        let pmax = random.between(1.0, 90.0);
        case.generators.push(Generator {
            pmin: random.pick(&[0.0, 0.25]) * pmax,
            c1: random.pick(&[3.0, 5.0]),
            c2: 0.0,
            ..unit(random.below(2), pmax)
        });
    }
    let least: f64 = case.generators.iter().map(|g| g.pmin).sum();
    let most: f64 = case.generators.iter().map(|g| g.pmax).sum();
    case.buses[1].reading = random.pick(&[least.next_up(), most.next_down(), least, most]);
    case
}

fn of_islands(random: &mut Random) -> Case {
    let buses = random.from_to(4, 24);
    let spec = Spec {
        buses,
        corridors: random.from_to(1, buses / 2),
        island_every: 3,
        generators: random.from_to(2, 12),
        ..spec(random)
    };
    let mut case = network(random, &spec);
    flat(&mut case);
    for g in &mut case.generators {
        g.c1 = random.below(2) as f64;
    }
    case
}

fn all_there_may_be(random: &mut Random) -> Case {
    let spec = Spec {
        generators: MOST_GENERATORS,
        ..spec(random)
    };
    let mut case = network(random, &spec);
    flat(&mut case);
    for g in &mut case.generators {
        g.c1 = random.below(4) as f64;
    }
    case
}

/// Small units at their most among large idle ones, so that the sum by index
/// loses some of what they give.
fn sums_that_round(random: &mut Random) -> Case {
    let mut case = pair(random);
    let load = random.between(30.0, 60.0);
    case.buses[1].reading = load;
    let place = load.next_up() - load;
    for _ in 0..random.from_to(2, 6) {
        let small = place * random.between(0.2, 1.4);
        let (pmax, c1) = random.pick(&[(small, 1.0), (2.0 * load, 4.0)]);
        let c2 = 0.0;
        case.generators.push(Generator {
            c1,
            c2,
            ..unit(0, pmax)
        });
    }
    case
}

fn no_unit(random: &mut Random) -> Case {
    let spec = Spec {
        generators: 0,
        ..spec(random)
    };
    network(random, &spec)
}

/// Two buses and a corridor between them.
fn pair(random: &mut Random) -> Case {
    let mut case = empty(mode(random), vec![138.0], 0);
    case.buses = vec![bus(0, 0.0); 2];
    case.corridors = vec![corridor(0, 1)];
    uniform_sheet(&mut case, plain_line(0.1, 100.0));
    case.target = random.below(6) as u32;
    case
}
