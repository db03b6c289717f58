//! Files to be moved into the other form of their buses (document 02, K7).

use super::{case_file, weights::with_ones, CAPPED, WEIGHED};
use crate::generate::random::Random;
use crate::harness::case_file::{read_case, write_case, MOST_BYTES};
use crate::harness::moves::Direction;
use crate::harness::tables::{Case, MOST_BUSES};

/// A file and what was done to it.
pub struct FileToMove {
    pub family: &'static str,
    pub bytes: Vec<u8>,
}

type Make = fn(&mut Random, Direction) -> Vec<u8>;

const FAMILIES: &[(&str, Make)] = &[
    ("as it is", |random, _| any_file(random)),
    ("refused", |random, _| refused_file(random)),
    ("due", |random, due| write_case(&case_due(random, due))),
    ("due, padded", |random, due| {
        let file = write_case(&case_due(random, due));
        padded(random, file)
    }),
    ("the other form", |random, due| {
        write_case(&case_due(random, due.other()))
    }),
    ("a weight that is not 1", another_weight),
    ("due, cut or changed", damaged),
    ("a byte behind the records, and a weight", |random, due| {
        let file = another_weight(random, due);
        let mut file = padded(random, file);
        *file.last_mut().expect("a file has a header") = 1;
        file
    }),
    ("256 buses", full),
    ("no bus", |random, due| {
        let mut case = case_due(random, due);
        case.generators.clear();
        case.buses.clear();
        write_case(&case)
    }),
];

/// Names of all families.
pub fn move_names() -> impl Iterator<Item = &'static str> {
    FAMILIES.iter().map(|&(name, _)| name)
}

/// The file of a seed to be moved so; the seed chooses the family in turn.
pub fn file_to_move(seed: u64, direction: Direction) -> FileToMove {
    let (family, make) = FAMILIES[(seed % FAMILIES.len() as u64) as usize];
    let mut random = Random::new(family, seed);
    let bytes = make(&mut random, direction);
    FileToMove { family, bytes }
}

/// Any seeded file, with own caps and weights or without.
fn any_file(random: &mut Random) -> Vec<u8> {
    let first = random.pick(&[0, CAPPED, WEIGHED]);
    case_file(first + random.below(100_000) as u64).bytes
}

fn refused_file(random: &mut Random) -> Vec<u8> {
    loop {
        let file = any_file(random);
        if read_case(&file).is_err() {
            return file;
        }
    }
}

/// Some case whose buses have the form that is moved so; weights are 1.
fn case_due(random: &mut Random, direction: Direction) -> Case {
    loop {
        let Ok(case) = read_case(&any_file(random)) else {
            continue;
        };
        if case.corridors.len() < 100 {
            let mut case = with_ones(case);
            let weighed = direction == Direction::Back;
            case.buses.iter_mut().for_each(|bus| bus.weighed = weighed);
            return case;
        }
    }
}

fn padded(random: &mut Random, mut file: Vec<u8>) -> Vec<u8> {
    let any = random.below(5_000);
    let length = random.pick(&[
        file.len() + 1,
        file.len() + 8,
        file.len() + any,
        MOST_BYTES - 1,
        MOST_BYTES,
        MOST_BYTES,
    ]);
    file.resize(length.max(file.len()), 0);
    file
}

/// One weight is not 1, or two are.
fn another_weight(random: &mut Random, direction: Direction) -> Vec<u8> {
    let mut case = case_due(random, direction);
    for _ in 0..random.from_to(1, 2) {
        let place = random.below(case.buses.len().max(1));
        let any = random.any_figure();
        let weight = random.pick(&[
            1f64.next_up(),
            1f64.next_down(),
            -1.0,
            0.0,
            1_000.0,
            f64::NAN,
            any,
        ]);
        if let Some(bus) = case.buses.get_mut(place) {
            bus.weight = weight;
        }
    }
    write_case(&case)
}

/// Cut or changed in a bit, most often among the levels and buses.
fn damaged(random: &mut Random, direction: Direction) -> Vec<u8> {
    let mut file = write_case(&case_due(random, direction));
    let among = random.pick(&[file.len(), file.len().min(400)]);
    let place = random.below(among);
    match random.once_in(2) {
        true => file.truncate(place),
        false => file[place] ^= 1 << random.below(8),
    }
    file
}

/// As many buses as there may be, with any bits for some readings; sometimes
/// one has the other form.
fn full(random: &mut Random, direction: Direction) -> Vec<u8> {
    let mut case = case_due(random, direction);
    let Some(&first) = case.buses.first() else {
        return write_case(&case);
    };
    case.buses.resize(MOST_BUSES, first);
    for bus in &mut case.buses {
        if random.once_in(8) {
            bus.reading = random.any_figure();
        }
    }
    if random.once_in(4) {
        let any = random.below(MOST_BUSES);
        let place = random.pick(&[1, any, MOST_BUSES - 1]);
        case.buses[place].weighed ^= true;
    }
    write_case(&case)
}
