//! Requests for placement.

use super::leaders::pair;
use super::{Family, Words};
use crate::generate::random::Random;
use crate::harness::answers::MOST_COUNT;
use crate::harness::checks::{MOST_MW, MOST_WEIGHT};
use crate::harness::operations::Support;
use crate::harness::tables::{MOST_BUSES, MOST_CORRIDORS, MOST_GENERATORS};

pub const FAMILIES: &[Family] = &[
    ("small", small),
    ("small", small),
    ("chain", chain),
    ("long chain", long_chain),
    ("equal lengths", ties),
    ("around 100 km", around_the_limit),
    ("zero lengths", zero_lengths),
    ("islands", islands),
    ("no generator", no_generator),
    ("no load", no_load),
    ("no corridor", no_corridor),
    ("no bus", no_bus),
    ("small loads", small_loads),
    ("large", large),
    ("at its bounds", at_bounds),
    LARGEST,
    ("a faulty load", faulty_load),
    ("a faulty generator", faulty_generator),
    ("a faulty corridor", faulty_corridor),
    ("faults of several kinds", several_faults),
    ("count past its bound", past_bounds),
    ("any bits", any_bits),
    ("weights", weighed),
    ("weights", weighed),
    ("weights, long chain", weighed_chain),
    ("products at their bounds", products_at_bounds),
    ("tiny products", tiny_products),
    ("a faulty weight", faulty_weight),
];

pub const LARGEST: Family = ("256 buses, 256 corridors, 128 generators", largest);

fn ask(support: &Support) -> Words {
    Words::new("PLACE")
        .whole(support.buses.len())
        .whole(support.corridors.len())
        .whole(support.generator_buses.len())
        .each(&support.buses, |words, &(reading, _)| words.figure(reading))
        .each(&support.buses, |words, &(_, weight)| words.figure(weight))
        .each(&support.corridors, |words, &(a, b, km)| {
            words.whole(a).whole(b).figure(km)
        })
        .each(&support.generator_buses, |words, &bus| words.whole(bus))
}

fn load(random: &mut Random) -> f64 {
    match random.once_in(4) {
        true => 0.0,
        false => random.between(0.0, 80.0),
    }
}

/// A mesh with lengths from `length`.
fn support(
    random: &mut Random,
    buses: usize,
    corridors: usize,
    generators: usize,
    length: fn(&mut Random) -> f64,
) -> Support {
    Support {
        buses: (0..buses).map(|_| (load(random), 1.0)).collect(),
        corridors: (0..corridors)
            .map(|_| {
                let (a, b) = pair(random, buses);
                (a, b, length(random))
            })
            .collect(),
        generator_buses: (0..generators).map(|_| random.below(buses)).collect(),
    }
}

fn length(random: &mut Random) -> f64 {
    random.between(5.0, 120.0)
}

fn small_support(random: &mut Random) -> Support {
    let buses = random.from_to(2, 9);
    let corridors = random.from_to(1, 12);
    let generators = random.from_to(1, 2);
    support(random, buses, corridors, generators, length)
}

fn small(random: &mut Random) -> Words {
    ask(&small_support(random))
}

fn chain_of(random: &mut Random, buses: usize, length: fn(&mut Random) -> f64) -> Support {
    let names = random.shuffled(buses);
    Support {
        buses: (0..buses).map(|_| (load(random), 1.0)).collect(),
        corridors: (1..buses)
            .map(|i| (names[i - 1], names[i], length(random)))
            .collect(),
        generator_buses: vec![names[0]],
    }
}

fn chain(random: &mut Random) -> Words {
    let buses = random.from_to(2, 20);
    ask(&chain_of(random, buses, length))
}

fn long_chain(random: &mut Random) -> Words {
    let buses = random.from_to(100, MOST_BUSES);
    ask(&chain_of(random, buses, |random| {
        random.between(20.0, 150.0)
    }))
}

/// Few lengths, so that many ways are equally long.
fn ties(random: &mut Random) -> Words {
    let buses = random.from_to(3, 16);
    let corridors = random.from_to(buses, 2 * buses);
    ask(&support(random, buses, corridors, 1, |random| {
        random.pick(&[30.0, 60.0, 60.0])
    }))
}

/// Ways of 100 km, a last place more or less.
fn around_the_limit(random: &mut Random) -> Words {
    let buses = random.from_to(2, 5);
    ask(&chain_of(random, buses, |random| {
        let km = random.pick(&[
            50.0,
            100.0,
            33.333333333333336,
            66.66666666666667,
            99.99999999999999,
        ]);
        random.near(km, 1)
    }))
}

fn zero_lengths(random: &mut Random) -> Words {
    let buses = random.from_to(2, 8);
    let corridors = random.from_to(1, 12);
    ask(&support(random, buses, corridors, 1, |random| {
        random.pick(&[0.0, -0.0, 60.0, 110.0])
    }))
}

fn islands(random: &mut Random) -> Words {
    let buses = random.from_to(6, 20);
    let corridors = random.from_to(1, buses / 2);
    ask(&support(random, buses, corridors, 2, length))
}

fn no_generator(random: &mut Random) -> Words {
    let mut support = small_support(random);
    support.generator_buses.clear();
    ask(&support)
}

fn no_load(random: &mut Random) -> Words {
    let mut support = small_support(random);
    support.buses.fill((random.pick(&[0.0, -0.0]), 1.0));
    ask(&support)
}

fn no_corridor(random: &mut Random) -> Words {
    let mut support = small_support(random);
    support.corridors.clear();
    ask(&support)
}

fn no_bus(random: &mut Random) -> Words {
    ask(&Support {
        buses: vec![],
        corridors: vec![(0, 1, 1.0); random.pick(&[0, 0, 1])],
        generator_buses: vec![0; random.pick(&[0, 0, 1])],
    })
}

fn small_loads(random: &mut Random) -> Words {
    let buses = random.from_to(2, 8);
    let mut support = chain_of(random, buses, |random| random.between(60.0, 200.0));
    for (reading, _) in &mut support.buses {
        *reading = random.pick(&[5e-324, 0.1, 4.0, 8.0, 10.0, 10.000000000000002]);
    }
    ask(&support)
}

fn large(random: &mut Random) -> Words {
    let buses = random.from_to(100, MOST_BUSES);
    let corridors = random.from_to(100, MOST_CORRIDORS);
    let generators = random.from_to(1, 20);
    ask(&support(random, buses, corridors, generators, length))
}

fn at_bounds(random: &mut Random) -> Words {
    let corridors = random.pick(&[0, MOST_CORRIDORS]);
    let generators = random.pick(&[0, MOST_GENERATORS]);
    let mut support = support(random, MOST_BUSES, corridors, generators, |random| {
        random.pick(&[0.0, 10.0, 10_000.0])
    });
    for (reading, _) in &mut support.buses {
        *reading = random.pick(&[0.0, 1.0, 1e6]);
    }
    ask(&support)
}

/// The generators stand at one, some or many of the buses, so that more or
/// fewer loads are far from all of them.
fn largest(random: &mut Random) -> Words {
    let mut support = support(random, MOST_BUSES, MOST_CORRIDORS, MOST_GENERATORS, length);
    let sites = random.pick(&[1, 8, 64, MOST_BUSES]);
    for bus in &mut support.generator_buses {
        *bus = random.below(sites);
    }
    ask(&support)
}

const OUT_OF_RANGE: [f64; 5] = [-5e-324, -1.0, f64::INFINITY, f64::NEG_INFINITY, f64::NAN];

fn spoil_load(random: &mut Random, support: &mut Support) {
    let place = random.below(support.buses.len());
    let past = random.pick(&[1e6f64.next_up(), 1e7]);
    support.buses[place].0 = match random.once_in(3) {
        true => past,
        false => random.pick(&OUT_OF_RANGE),
    };
}

fn spoil_generator(random: &mut Random, support: &mut Support) {
    let buses = support.buses.len();
    let place = random.below(support.generator_buses.len() + 1);
    let past = random.pick(&[buses, buses + 1, 65_536]);
    support.generator_buses.insert(place, past);
}

fn spoil_corridor(random: &mut Random, support: &mut Support) {
    let buses = support.buses.len();
    let place = random.below(support.corridors.len());
    let (a, b, km) = support.corridors[place];
    let past = random.pick(&[buses, 999_999_999]);
    let wrong_length = random.pick(&OUT_OF_RANGE);
    support.corridors[place] = random.pick(&[
        (past, b, km),
        (a, past, km),
        (a, a, km),
        (a, b, wrong_length),
        (a, b, 10_000f64.next_up()),
    ]);
}

fn faulty_load(random: &mut Random) -> Words {
    let mut support = small_support(random);
    spoil_load(random, &mut support);
    ask(&support)
}

fn faulty_generator(random: &mut Random) -> Words {
    let mut support = small_support(random);
    spoil_generator(random, &mut support);
    ask(&support)
}

fn faulty_corridor(random: &mut Random) -> Words {
    let mut support = small_support(random);
    spoil_corridor(random, &mut support);
    ask(&support)
}

fn several_faults(random: &mut Random) -> Words {
    let mut support = small_support(random);
    for _ in 0..random.from_to(2, 4) {
        let spoil = random.pick(&[spoil_load, spoil_generator, spoil_corridor]);
        spoil(random, &mut support);
    }
    ask(&support)
}

fn past_bounds(random: &mut Random) -> Words {
    let mut support = small_support(random);
    let past = random.pick(&[MOST_BUSES + 1, 300, MOST_COUNT]);
    match random.below(3) {
        0 => support.buses.resize(past, (1.0, 1.0)),
        1 => support.corridors.resize(past, (0, 0, 1.0)),
        _ => {
            let generators = random.pick(&[MOST_GENERATORS + 1, past]);
            support.generator_buses.resize(generators, 999);
        }
    }
    ask(&support)
}

fn any_bits(random: &mut Random) -> Words {
    let buses = random.from_to(1, 4);
    let corridors = random.below(4);
    ask(&Support {
        buses: (0..buses)
            .map(|_| (random.any_figure().abs(), random.any_figure().abs()))
            .collect(),
        corridors: (0..corridors)
            .map(|_| {
                (
                    random.below(buses),
                    random.below(buses),
                    random.any_figure().abs(),
                )
            })
            .collect(),
        generator_buses: vec![random.below(buses)],
    })
}

/// The readings' weights; the load stays about what it was, or not.
fn weigh(random: &mut Random, support: &mut Support) {
    let keep = random.once_in(2);
    for (reading, weight) in &mut support.buses {
        *weight = random.pick(&[0.25, 0.75, 2.0, MOST_WEIGHT]);
        if random.once_in(2) {
            *weight = random.between(0.01, 20.0);
        }
        if keep {
            *reading /= *weight;
        }
    }
}

fn weighed(random: &mut Random) -> Words {
    let mut support = small_support(random);
    weigh(random, &mut support);
    ask(&support)
}

fn weighed_chain(random: &mut Random) -> Words {
    let buses = random.from_to(10, MOST_BUSES);
    let mut support = chain_of(random, buses, length);
    weigh(random, &mut support);
    ask(&support)
}

/// Products of a million, a last place more or less.
fn products_at_bounds(random: &mut Random) -> Words {
    let mut support = small_support(random);
    for (reading, weight) in &mut support.buses {
        *weight = random.pick(&[1.0, 3.0, 700.0, MOST_WEIGHT]);
        *reading = match random.once_in(4) {
            true => random.near(MOST_MW / *weight, 1),
            false => random.between(0.0, 0.99) * MOST_MW / *weight,
        };
    }
    ask(&support)
}

/// Products that are subnormal, or underflow, among others.
fn tiny_products(random: &mut Random) -> Words {
    let mut support = small_support(random);
    for (reading, weight) in &mut support.buses {
        if random.once_in(2) {
            *reading = random.pick(&[5e-324, 0.1, 0.5, 1.5, 1e-10, -0.0]);
            *weight = random.pick(&[5e-324, 1e-322, 1e-310, 1e-5, 0.5]);
        }
    }
    ask(&support)
}

fn faulty_weight(random: &mut Random) -> Words {
    let mut support = small_support(random);
    weigh(random, &mut support);
    for _ in 0..random.from_to(1, 2) {
        let place = random.below(support.buses.len());
        let never = random.pick(&OUT_OF_RANGE);
        let weight = random.pick(&[0.0, -0.0, MOST_WEIGHT.next_up(), 1e6, never, never]);
        support.buses[place] = match random.below(4) {
            0 => (MOST_MW, 1f64.next_up()),
            1 => (random.pick(&[MOST_MW.next_up(), 2e6]), 0.25),
            _ => (support.buses[place].0, weight),
        };
    }
    ask(&support)
}
