//! Weights for the readings of a case (document 02, K6), and files in which a
//! bus's two marks meet or are exchanged.

use super::damage::good_file;
use super::Extras;
use crate::generate::random::Random;
use crate::harness::case_file::{read_case, write_case};
use crate::harness::checks::{MOST_MW, MOST_WEIGHT};
use crate::harness::tables::{Bus, Case};

/// Bytes of a BU and of a BV.
const PLAIN: usize = 11;
const WEIGHED: usize = 19;

/// Gives one bus a weight, as BV.
type Give = fn(&mut Random, &mut Bus);

fn put(bus: &mut Bus, reading: f64, weight: f64) {
    bus.reading = reading;
    bus.weight = weight;
    bus.weighed = true;
}

/// The load stays about what it was, where a reading can say it.
fn share(bus: &mut Bus, weight: f64) {
    let reading = bus.reading / weight;
    match reading <= MOST_MW {
        true => put(bus, reading, weight),
        false => put(bus, bus.reading, 1.0),
    }
}

/// How a bus gets its weight; every case has one of these for all of its
/// buses, or any of them for each.
const GIVE: &[Give] = &[
    // The reading is the load.
    |_, bus| put(bus, bus.reading, 1.0),
    |_, bus| put(bus, bus.reading, 1.0),
    // The load is what it was, or about that.
    |random, bus| share(bus, random.pick(&[0.25, 0.5, 2.0, 4.0, 512.0])),
    |random, bus| share(bus, random.between(0.01, MOST_WEIGHT)),
    |random, bus| share(bus, random.log_between(1e-3, MOST_WEIGHT)),
    |random, bus| share(bus, random.near(1.0, 2)),
    |_, bus| share(bus, MOST_WEIGHT),
    // Another load.
    |random, bus| put(bus, bus.reading, random.between(0.2, 2.0)),
    // Products that are subnormal, or underflow.
    |random, bus| {
        let weight = random.pick(&[5e-324, 1e-322, f64::MIN_POSITIVE, 1e-300]);
        put(bus, bus.reading, weight);
    },
    // A reading of minus zero among others.
    |random, bus| match random.once_in(3) {
        true => put(bus, -0.0, random.between(0.01, MOST_WEIGHT)),
        false => share(bus, random.between(0.5, 8.0)),
    },
];

/// The case, its buses with weights where `weighed` says so.
pub fn with_weights(random: &mut Random, mut case: Case, weighed: bool) -> Case {
    if weighed {
        let all = random.pick(GIVE);
        let mixed = random.once_in(4);
        for bus in &mut case.buses {
            let give = if mixed { random.pick(GIVE) } else { all };
            give(random, bus);
        }
    }
    case
}

/// The case as BV with weight 1 everywhere.
pub fn with_ones(mut case: Case) -> Case {
    for bus in &mut case.buses {
        put(bus, bus.reading, 1.0);
    }
    case
}

/// Figures that are no reading and no weight.
const NEVER: [f64; 6] = [
    f64::INFINITY,
    f64::NEG_INFINITY,
    f64::NAN,
    -f64::NAN,
    -5e-324,
    -1.0,
];

/// Any pattern of a NaN.
fn any_nan(random: &mut Random) -> f64 {
    f64::from_bits(0x7FF0_0000_0000_0001 | random.bits())
}

/// Reading, weight or product past a bound.
const FAULTS: &[Give] = &[
    |random, bus| put(bus, bus.reading, random.pick(&[0.0, -0.0])),
    |random, bus| {
        put(
            bus,
            1.0,
            random.pick(&[MOST_WEIGHT.next_up(), 1_001.0, 1e6]),
        )
    },
    |random, bus| put(bus, bus.reading, random.pick(&NEVER)),
    |random, bus| put(bus, bus.reading, any_nan(random)),
    // A weight that would make the product a load.
    |random, bus| put(bus, random.pick(&[MOST_MW.next_up(), 1.5e6, 1e9]), 1e-3),
    |random, bus| put(bus, random.pick(&NEVER), random.between(0.5, 2.0)),
    |random, bus| put(bus, any_nan(random), 1.0),
    // A reading and a weight that are good by themselves.
    |_, bus| put(bus, MOST_MW, 1f64.next_up()),
    |random, bus| {
        let weight = random.between(1.5, MOST_WEIGHT);
        put(bus, random.between(1.01, 1.4) * MOST_MW / weight, weight);
    },
];

/// Within a last place or two of a bound.
const EDGES: &[Give] = &[
    |random, bus| {
        let weight = random.between(1.0, MOST_WEIGHT);
        put(bus, random.near(MOST_MW / weight, 2), weight);
    },
    |random, bus| put(bus, random.between(0.0, 900.0), random.near(MOST_WEIGHT, 1)),
    |random, bus| put(bus, random.near(MOST_MW, 1), random.pick(&[1.0, 0.5, 1e-3])),
    |random, bus| put(bus, 1_000.0, random.near(MOST_WEIGHT, 1)),
    |random, bus| put(bus, MOST_MW, random.near(1.0, 1)),
    |random, bus| put(bus, random.pick(&[0.0, -0.0]), random.near(MOST_WEIGHT, 1)),
    // The least weight, whose product rounds up to itself, or down to zero.
    |random, bus| put(bus, random.near(0.5, 2), 5e-324),
];

/// One or two buses spoiled in these ways; every other time one more bus has a
/// wrong tier.
fn spoiled(random: &mut Random, turn: usize, extras: Extras, ways: &[Give]) -> Vec<u8> {
    let file = good_file(random, extras);
    let mut case = read_case(&file).expect("the file is good");
    for _ in 0..random.from_to(1, 2) {
        let spoil = random.pick(ways);
        if let Some(bus) = some_bus(random, &mut case) {
            spoil(random, bus);
        }
    }
    if turn.is_multiple_of(4) {
        if let Some(bus) = some_bus(random, &mut case) {
            bus.tier = 255;
        }
    }
    write_case(&case)
}

pub fn past_bounds(random: &mut Random, turn: usize, extras: Extras) -> Vec<u8> {
    spoiled(random, turn, extras, FAULTS)
}

pub fn at_bounds(random: &mut Random, turn: usize, extras: Extras) -> Vec<u8> {
    spoiled(random, turn, extras, EDGES)
}

fn some_bus<'a>(random: &mut Random, case: &'a mut Case) -> Option<&'a mut Bus> {
    let place = random.below(case.buses.len().max(1));
    case.buses.get_mut(place)
}

/// Where each bus of a case's file stands, and where the last one ends.
fn buses_in(case: &Case) -> Vec<usize> {
    let before = Case {
        buses: Vec::new(),
        generators: Vec::new(),
        corridors: Vec::new(),
        sheet: Vec::new(),
        ..case.clone()
    };
    let mut places = vec![write_case(&before).len()];
    for bus in &case.buses {
        let length = if bus.weighed { WEIGHED } else { PLAIN };
        places.push(places[places.len() - 1] + length);
    }
    places
}

/// The other form from some bus on: for that bus alone, for all behind it too,
/// or by its mark alone. Sometimes the file ends in that record.
pub fn forms_meet(random: &mut Random, turn: usize, extras: Extras) -> Vec<u8> {
    let mut case = read_case(&good_file(random, extras)).expect("the file is good");
    if turn.is_multiple_of(2) {
        for bus in &mut case.buses {
            bus.weighed = false;
        }
    }
    let last = case.buses.len().saturating_sub(1);
    if last == 0 {
        return write_case(&case);
    }
    let any = random.from_to(1, last);
    let place = random.pick(&[1, last, any]);
    let way = random.below(3);
    if way < 2 {
        let behind = if way == 0 { place + 1 } else { last + 1 };
        for bus in &mut case.buses[place..behind] {
            bus.weighed = !bus.weighed;
        }
    }
    let mut file = write_case(&case);
    let at = buses_in(&case)[place];
    if way == 2 {
        let mark = if case.buses[place].weighed {
            b"BU"
        } else {
            b"BV"
        };
        file[at..at + 2].copy_from_slice(mark);
    }
    if random.once_in(3) {
        file.truncate(at + random.pick(&[2, PLAIN - 1, PLAIN, WEIGHED - 1, WEIGHED]));
    }
    file
}

/// Cut inside a bus, or right before or behind it; sometimes its mark is
/// another.
pub fn cut_in_a_bus(random: &mut Random, _: usize, extras: Extras) -> Vec<u8> {
    let mut file = good_file(random, extras);
    let case = read_case(&file).expect("the file is good");
    let at = random.pick(&buses_in(&case));
    if random.once_in(4) && at + 2 <= file.len() {
        file[at..at + 2].copy_from_slice(random.pick(&[b"BU", b"bV", b"CP", b"BW"]));
    }
    let any = random.from_to(PLAIN, WEIGHED - 1);
    file.truncate(at + random.pick(&[0, 1, 2, PLAIN - 1, PLAIN, any, WEIGHED - 1, WEIGHED]));
    file
}

/// Where each record that is no bus stands.
fn others_in(case: &Case) -> Vec<usize> {
    let buses = buses_in(case);
    let mut places = vec![0];
    places.extend((0..case.ladder.len()).map(|i| 15 + 10 * i));
    let mut at = buses[buses.len() - 1];
    let mut put = |length| {
        places.push(at);
        at += length;
    };
    case.generators.iter().for_each(|_| put(37));
    let corridors = case.corridors.iter();
    corridors.for_each(|c| put(if c.is_capped() { 24 } else { 23 }));
    case.sheet.iter().for_each(|_| put(35));
    places
}

/// BV in the place of another record, whole or cut.
pub fn in_place_of_others(random: &mut Random, _: usize, extras: Extras) -> Vec<u8> {
    let mut file = good_file(random, extras);
    let case = read_case(&file).expect("the file is good");
    let at = random.pick(&others_in(&case));
    file[at..at + 2].copy_from_slice(random.pick(&[b"BV", b"BV", b"BU"]));
    if random.once_in(2) {
        file.truncate(at + random.pick(&[2, 10, PLAIN, WEIGHED - 1, WEIGHED, 23, 24, 35, 37]));
    }
    file
}
