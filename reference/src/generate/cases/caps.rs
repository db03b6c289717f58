//! Own caps for the corridors of a case (document 02, K5), and files in which
//! a corridor's two marks are exchanged.

use super::damage::good_file;
use super::Extras;
use crate::generate::random::Random;
use crate::harness::case_file::{read_case, write_case};
use crate::harness::checks::MOST_CAP;
use crate::harness::tables::{Case, CorridorRecord};

/// Cap bytes that planning and the preview refuse.
const PAST: [u8; 3] = [MOST_CAP + 1, 128, 255];

fn any_cap(random: &mut Random) -> u8 {
    random.from_to(0, MOST_CAP.into()) as u8
}

fn own_cap(random: &mut Random) -> u8 {
    random.from_to(1, MOST_CAP.into()) as u8
}

/// Gives one corridor a cap, as CP.
type Give = fn(&mut Random, &mut CorridorRecord);

fn put(corridor: &mut CorridorRecord, cap: u8) {
    corridor.cap = cap;
    corridor.marked = true;
}

/// How a corridor gets its cap; every case has one of these for all of its
/// corridors.
const GIVE: &[Give] = &[
    // Every one a CP, with any cap or with an own one.
    |random, c| put(c, any_cap(random)),
    |random, c| put(c, own_cap(random)),
    // CO and CP mixed.
    |random, c| {
        if random.once_in(2) {
            put(c, any_cap(random));
        }
    },
    // As every other file has it, and the same written as CP.
    |_, _| {},
    |_, c| put(c, 0),
    // Narrow valleys, and wide ones.
    |random, c| put(c, random.pick(&[1, 2, 3])),
    |random, c| put(c, random.pick(&[5, 6])),
    // Below or at the initial count.
    |random, c| {
        c.circuits = random.from_to(1, 9) as u8;
        put(c, random.from_to(1, c.circuits.min(MOST_CAP).into()) as u8);
    },
    // At the initial count, or one above it.
    |random, c| {
        let cap = own_cap(random);
        c.circuits = random.pick(&[cap, cap - 1]);
        put(c, cap);
    },
];

/// The case, its corridors with caps where `capped` says so.
pub fn with_caps(random: &mut Random, mut case: Case, capped: bool) -> Case {
    if capped {
        let give = random.pick(GIVE);
        for corridor in &mut case.corridors {
            give(random, corridor);
        }
    }
    case
}

/// One corridor's cap past its bound.
pub fn put_past(random: &mut Random, case: &mut Case) {
    let cap = random.pick(&PAST);
    if let Some(corridor) = some_corridor(random, case) {
        put(corridor, cap);
    }
}

/// One cap past its bound, or two; every other time beside another fault.
pub fn past_its_bound(random: &mut Random, turn: usize, extras: Extras) -> Vec<u8> {
    let file = good_file(random, extras);
    let mut case = read_case(&file).expect("the file is good");
    for _ in 0..random.from_to(1, 2) {
        put_past(random, &mut case);
    }
    if turn.is_multiple_of(2) {
        if let Some(corridor) = some_corridor(random, &mut case) {
            corridor.b = corridor.a;
        }
    }
    write_case(&case)
}

fn some_corridor<'a>(random: &mut Random, case: &'a mut Case) -> Option<&'a mut CorridorRecord> {
    let place = random.below(case.corridors.len().max(1));
    case.corridors.get_mut(place)
}

/// Where each corridor of a good file stands, and whether it is a CP.
fn corridors_in(file: &[u8]) -> Vec<(usize, bool)> {
    let case = read_case(file).expect("the file is good");
    let before = Case {
        corridors: Vec::new(),
        sheet: Vec::new(),
        ..case.clone()
    };
    let mut place = write_case(&before).len();
    let stands = |c: &CorridorRecord| {
        let here = place;
        place += if c.is_capped() { 24 } else { 23 };
        (here, c.is_capped())
    };
    case.corridors.iter().map(stands).collect()
}

/// A CO made CP or a CP made CO, with its cap byte put in or left out, or the
/// mark alone; then every record behind it stands in another place.
pub fn made_the_other(random: &mut Random, turn: usize, extras: Extras) -> Vec<u8> {
    let mut file = good_file(random, extras);
    let corridors = corridors_in(&file);
    if corridors.is_empty() {
        return file;
    }
    let (place, is_capped) = random.pick(&corridors);
    let mark = if is_capped { b"CO" } else { b"CP" };
    file[place..place + 2].copy_from_slice(mark);
    match (turn.is_multiple_of(2), is_capped) {
        (true, _) => {}
        (false, true) => drop(file.remove(place + 23)),
        (false, false) => file.insert(place + 23, any_cap(random)),
    }
    file
}

/// Cut inside a corridor, or right before or behind it.
pub fn cut_in_a_corridor(random: &mut Random, _: usize, extras: Extras) -> Vec<u8> {
    let mut file = good_file(random, extras);
    let corridors = corridors_in(&file);
    if !corridors.is_empty() {
        let (place, _) = random.pick(&corridors);
        let cut = random.pick(&[0, 1, 2, 22, 23, 24, 25]);
        file.truncate(place + cut);
    }
    file
}
