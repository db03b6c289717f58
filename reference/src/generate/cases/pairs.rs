//! Pairs of case files to be joined (document 02, K10). The second of a pair
//! that is to be joined has the ladder and the mode of the first.

use super::sketch::{empty, fill_sheet, ladder, network, Spec};
use super::{case_file, faults, serving_file, CAPPED, WEIGHED};
use crate::generate::random::Random;
use crate::harness::case_file::{read_case, write_case, MOST_BYTES};
use crate::harness::checks::accept_case;
use crate::harness::tables::{
    Case, MOST_BUSES, MOST_CORRIDORS, MOST_GENERATORS, MOST_LEVELS, MOST_MODE, MOST_TARGET, SERVING,
};

/// Two files, and how they were made.
pub struct Pair {
    pub family: &'static str,
    /// At most 65,536 bytes.
    pub first: Vec<u8>,
    pub second: Vec<u8>,
    /// Whether zeros fill the first one; without them there is no second.
    pub padded: bool,
}

impl Pair {
    /// What the program reads.
    pub fn input(&self) -> Vec<u8> {
        let mut input = self.first.clone();
        if self.padded {
            input.resize(MOST_BYTES, 0);
            input.extend(&self.second);
        }
        input
    }
}

type Files = (Vec<u8>, Vec<u8>);

/// The turn counts the pairs of a family.
type Make = fn(&mut Random, usize) -> Files;

const ALONE: &str = "one file alone";

const FAMILIES: &[(&str, Make)] = &[
    ("alike", |random, _| both(alike(random))),
    ("alike, with weights in one", |random, turn| {
        weights_in_one(random, turn)
    }),
    ("alike, each mode in turn", each_mode),
    ("alike, Expand with targets", |random, turn| {
        let (mut first, mut second) = alike(random);
        for case in [&mut first, &mut second] {
            case.mode = if turn.is_multiple_of(2) { 0 } else { SERVING };
            case.target = random.below(4 * case.corridors.len() + 4) as u32;
        }
        both((first, second))
    }),
    ("alike, large", large),
    ("a case with itself", |random, _| {
        let case = some_case(random);
        both((case.clone(), case))
    }),
    ("no bus in one or both", no_bus),
    ("alike, padded", |random, _| {
        let (first, mut second) = both(alike(random));
        second.resize(random.pick(&[second.len() + 1, MOST_BYTES]), 0);
        (first, second)
    }),
    ("sums at a bound", |random, turn| sums(random, turn, 0)),
    ("sums one past a bound", |random, turn| {
        sums(random, turn, 1)
    }),
    ("sums past bounds, unlike", |random, turn| {
        let (first, mut second) = sums_of(random, turn, 1);
        make_unlike(random, turn / 4, &first, &mut second);
        both((first, second))
    }),
    ("unlike", |random, turn| {
        let (first, mut second) = alike(random);
        make_unlike(random, turn, &first, &mut second);
        both((first, second))
    }),
    ("unlike", |random, turn| {
        let (mut first, second) = alike(random);
        make_unlike(random, turn, &second, &mut first);
        both((first, second))
    }),
    ("unlike in all", |random, _| {
        both((some_case(random), some_case(random)))
    }),
    ("a fault in the first", |random, turn| {
        let first = faulty(random, turn);
        let second = beside(random, &first);
        both((first, second))
    }),
    ("a fault in the second", |random, turn| {
        let second = faulty(random, turn);
        // Of another ladder, where that has the fault.
        let first = match turn % FAULTS.len() {
            0 => some_case(random),
            _ => beside(random, &second),
        };
        both((first, second))
    }),
    ("faults in both", |random, turn| {
        let first = faulty(random, turn / FAULTS.len());
        both((first, faulty(random, turn)))
    }),
    ("a fault, and sums past a bound", |random, turn| {
        let case = faulty(random, turn);
        let mut large = sized(random, &case, [MOST_BUSES, MOST_CORRIDORS, MOST_GENERATORS]);
        large.target = MOST_TARGET as u32;
        match turn / FAULTS.len() % 2 {
            0 => both((case, large)),
            _ => both((large, case)),
        }
    }),
    ("the first cannot be read", |random, turn| {
        let first = unreadable(random, turn);
        (first, write_case(&some_case(random)))
    }),
    ("the second cannot be read", |random, turn| {
        let first = write_case(&some_case(random));
        (first, unreadable(random, turn))
    }),
    (
        "the second cannot be read, a fault in the first",
        |random, turn| {
            let first = write_case(&faulty(random, turn));
            (first, unreadable(random, turn))
        },
    ),
    ("neither can be read", |random, turn| {
        (
            unreadable(random, turn),
            unreadable(random, turn / READING.len()),
        )
    }),
    ("the second is too long", |random, _| {
        let (first, mut second) = both(alike(random));
        second.resize(MOST_BYTES + random.from_to(1, 9), 0);
        (first, second)
    }),
    ("no second file", |random, _| {
        (write_case(&some_case(random)), Vec::new())
    }),
    (ALONE, |random, turn| {
        let first = if turn.is_multiple_of(2) {
            write_case(&some_case(random))
        } else {
            unreadable(random, turn)
        };
        (first, Vec::new())
    }),
    ("any two files", |random, _| {
        (any_file(random), any_file(random))
    }),
];

/// Names of all families.
pub fn pair_names() -> impl Iterator<Item = &'static str> {
    FAMILIES.iter().map(|&(name, _)| name)
}

/// The pair of a seed; the seed chooses the family in turn.
pub fn pair(seed: u64) -> Pair {
    let count = FAMILIES.len() as u64;
    let (family, make) = FAMILIES[(seed % count) as usize];
    let mut random = Random::new(family, seed);
    let (mut first, second) = make(&mut random, (seed / count) as usize);
    first.truncate(MOST_BYTES);
    Pair {
        family,
        first,
        second,
        padded: family != ALONE,
    }
}

fn both((first, second): (Case, Case)) -> Files {
    (write_case(&first), write_case(&second))
}

/// Any seeded file, with own caps and weights or without, in any mode.
fn any_file(random: &mut Random) -> Vec<u8> {
    let seed = random.pick(&[0, CAPPED, WEIGHED]) + random.below(100_000) as u64;
    match random.once_in(3) {
        true => serving_file(seed).bytes,
        false => case_file(seed).bytes,
    }
}

/// Some case that is accepted and not large.
fn some_case(random: &mut Random) -> Case {
    loop {
        if let Ok(case) = read_case(&any_file(random)) {
            if case.corridors.len() < 60 && accept_case(&case).is_ok() {
                return case;
            }
        }
    }
}

/// The case with the mode and the ladder of another.
fn suited(random: &mut Random, mut case: Case, other: &Case) -> Case {
    case.mode = other.mode;
    case.ladder = other.ladder.clone();
    case.above = other.above;
    for bus in &mut case.buses {
        bus.tier %= other.requested() as u8;
    }
    fill_sheet(random, &mut case);
    case
}

/// Some case that `other` can be joined with, where it is accepted.
fn beside(random: &mut Random, other: &Case) -> Case {
    let case = some_case(random);
    suited(random, case, other)
}

fn alike(random: &mut Random) -> (Case, Case) {
    let first = some_case(random);
    let second = beside(random, &first);
    (first, second)
}

/// Weights, of 1 or not, in the first or in the second; the other is BU.
fn weights_in_one(random: &mut Random, turn: usize) -> Files {
    let weighed = loop {
        let seed = WEIGHED + random.below(100_000) as u64;
        let case = read_case(&case_file(seed).bytes).ok();
        let good = |case: &Case| !case.buses.is_empty() && case.corridors.len() < 60;
        if let Some(case) = case.filter(|case| good(case) && accept_case(case).is_ok()) {
            break case;
        }
    };
    let mut plain = beside(random, &weighed);
    for bus in &mut plain.buses {
        (bus.weighed, bus.weight) = (false, 1.0);
    }
    match turn % 2 {
        0 => both((weighed, plain)),
        _ => both((plain, weighed)),
    }
}

fn each_mode(random: &mut Random, turn: usize) -> Files {
    let (mut first, mut second) = alike(random);
    let mode = (turn % (usize::from(MOST_MODE) + 1)) as u8;
    (first.mode, second.mode) = (mode, mode);
    both((first, second))
}

/// A case of these counts of buses, corridors and generators, with the mode
/// and the ladder of another.
fn sized(random: &mut Random, other: &Case, counts: [usize; 3]) -> Case {
    let [buses, corridors, generators] = counts;
    let spec = Spec {
        mode: other.mode,
        buses,
        corridors,
        generators,
        above: 0,
        requested: other.requested(),
        load: random.pick(&[10.0, 40.0]),
        km: 60.0,
        island_every: random.pick(&[8, 40]),
    };
    let case = network(random, &spec);
    suited(random, case, other)
}

/// Cases whose counts add up to nearly as many as there may be.
fn large(random: &mut Random, _: usize) -> Files {
    let first = some_case(random);
    let counts = [MOST_BUSES, MOST_CORRIDORS, MOST_GENERATORS];
    let mut part = || counts.map(|most| random.from_to(most / 4, most / 2));
    let (one, other) = (part(), part());
    let second = sized(random, &first, one);
    both((sized(random, &first, other), second))
}

/// Two cases alike whose buses, corridors, generators or targets, in turn, add
/// up to their bound and so many more.
fn sums_of(random: &mut Random, turn: usize, more: usize) -> (Case, Case) {
    let levels = random.from_to(1, 3);
    let above = random.below(MOST_LEVELS - levels).min(1);
    let mode = random.below(usize::from(MOST_MODE) + 1) as u8;
    let like = empty(mode, ladder(random, above + levels), above);
    let mut counts = [[20, 30, 4], [12, 14, 3]];
    let most = [MOST_BUSES, MOST_CORRIDORS, MOST_GENERATORS];
    let which = turn % 4;
    if which < 3 {
        let one = random.from_to(2, most[which] - 2);
        counts[0][which] = one;
        counts[1][which] = most[which] - one + more;
    }
    let [mut first, mut second] = counts.map(|counts| sized(random, &like, counts));
    if which == 3 {
        first.target = random.below(MOST_TARGET) as u32;
        second.target = (MOST_TARGET + more) as u32 - first.target;
    }
    (first, second)
}

fn sums(random: &mut Random, turn: usize, more: usize) -> Files {
    // All at their bounds together, once in eight; otherwise one of them.
    if turn % 8 == 7 {
        let like = some_case(random);
        let halves = [MOST_BUSES / 2, MOST_CORRIDORS / 2, MOST_GENERATORS / 2];
        let mut first = sized(random, &like, halves);
        let mut second = sized(random, &like, halves.map(|half| half + more));
        first.target = (MOST_TARGET / 2) as u32;
        second.target = (MOST_TARGET / 2 + more) as u32;
        return both((first, second));
    }
    both(sums_of(random, turn % 8, more))
}

/// No bus, so nothing else but levels and a target.
fn no_bus(random: &mut Random, turn: usize) -> Files {
    let case = some_case(random);
    let none = |random: &mut Random| Case {
        target: random.pick(&[0, 7]),
        ..empty(case.mode, case.ladder.clone(), case.above)
    };
    let empty = none(random);
    both(match turn % 3 {
        0 => (empty, case.clone()),
        1 => (case.clone(), empty),
        _ => (none(random), empty),
    })
}

/// Makes the second unlike the first in one respect, in turn, and leaves it an
/// accepted case.
fn make_unlike(random: &mut Random, turn: usize, first: &Case, second: &mut Case) {
    match turn % 5 {
        // Another mode; the one with idle units that is otherwise the same.
        0 => second.mode = (first.mode + random.from_to(1, 5) as u8) % (MOST_MODE + 1),
        1 => second.mode = (first.mode + SERVING) % (MOST_MODE + 1),
        2 => another_kv(random, second),
        3 => another_level(random, second),
        _ => another_request(second),
    }
}

/// One level is less by one last place or by a fraction, where the ladder
/// allows it; else the last one.
fn another_kv(random: &mut Random, case: &mut Case) {
    let last = case.ladder.len() - 1;
    let place = random.below(last + 1);
    let kv = case.ladder[place];
    let lower = random.pick(&[kv.next_down(), kv * 0.75]);
    match case.ladder.get(place + 1) {
        Some(next) if lower <= next + 1e-6 => case.ladder[last] = case.ladder[last].next_down(),
        _ => case.ladder[place] = lower,
    }
}

/// One level fewer or one more at the ladder's end; the count of requested
/// levels stays where the ladder allows it.
fn another_level(random: &mut Random, case: &mut Case) {
    let least = case.ladder[case.ladder.len() - 1];
    if case.ladder.len() < MOST_LEVELS && least > 1.0 {
        case.ladder.push(least / 2.0);
        case.above += 1;
    } else if case.above > 0 {
        case.ladder.pop();
        case.above -= 1;
    } else {
        case.ladder.pop();
        case.buses.iter_mut().for_each(|bus| bus.tier = 0);
    }
    fill_sheet(random, case);
}

/// Another part of the same ladder is requested; of a single level another
/// mode.
fn another_request(case: &mut Case) {
    if case.above > 0 {
        case.above -= 1;
    } else if case.ladder.len() > 1 {
        case.above = 1;
        let requested = case.requested() as u8;
        case.buses.iter_mut().for_each(|bus| bus.tier %= requested);
    } else {
        case.mode = (case.mode + 1) % (MOST_MODE + 1);
    }
}

/// Faults of 3 to 7, and several.
const FAULTS: [fn(&mut Random) -> Case; 6] = [
    faults::ladder,
    faults::bus,
    faults::generator,
    faults::corridor,
    faults::sheet_row,
    faults::several,
];

fn faulty(random: &mut Random, turn: usize) -> Case {
    let mut case = FAULTS[turn % FAULTS.len()](random);
    case.mode += random.pick(&[0, SERVING]);
    case
}

/// Damage that reading refuses: 2, 14 or, padded, 15, then 15, 16, 17 and any.
const READING: [fn(&mut Random, &mut Vec<u8>); 6] = [
    |random, file| {
        let (place, byte) = random.pick(&[(8, 9), (10, 9), (12, 9), (13, 250), (14, 0), (6, 1)]);
        file[place] = byte;
    },
    |random, file| file.truncate(random.below(file.len())),
    |random, file| file[random.pick(&[0, 1, 15, 16])] ^= 1 << random.below(8),
    |random, file| file[2] = random.pick(&[MOST_MODE + 1, 255]),
    |random, file| {
        file.resize(file.len() + random.from_to(1, 3_000), 0);
        *file.last_mut().expect("it is not empty") = 1;
    },
    |random, file| *file = refused_file(random),
];

fn unreadable(random: &mut Random, turn: usize) -> Vec<u8> {
    let mut file = write_case(&some_case(random));
    READING[turn % READING.len()](random, &mut file);
    file
}

fn refused_file(random: &mut Random) -> Vec<u8> {
    loop {
        let file = any_file(random);
        if read_case(&file).is_err() {
            return file;
        }
    }
}
