//! Families of files that are no good case file, or barely one: wrong counts,
//! marks and small fields, padding, cuts, flips and noise.

use super::networks::{middling_observe, small_expand, small_observe, small_reinforce, two_buses};
use super::sketch::{plain_line, uniform_sheet, OBSERVE};
use super::weights::with_ones;
use super::{with_extras, Extras};
use crate::generate::random::Random;
use crate::harness::case_file::{write_case, MOST_BYTES};
use crate::harness::tables::{CorridorRecord, MOST_MODE};

/// Where the header's fields lie in the file.
const MODE: usize = 2;
const TARGET: usize = 3;
const BUSES: usize = 7;
const CORRIDORS: usize = 9;
const GENERATORS: usize = 11;
const ABOVE: usize = 13;
const REQUESTED: usize = 14;

/// A file that is read.
pub fn good_file(random: &mut Random, extras: Extras) -> Vec<u8> {
    let make = random.pick(&[small_expand, small_reinforce, small_observe]);
    let case = make(random);
    write_case(&with_extras(random, case, extras))
}

/// A file with every kind of record, as small as can be: case L, with a second
/// corridor that is a CP where there are caps, and with BV where there are
/// weights.
pub fn smallest_file(extras: Extras) -> Vec<u8> {
    let mut case = two_buses(OBSERVE, 138.0, 50.0, plain_line(0.5, 100.0));
    case.generators[0].pmax = 100.0;
    case.generators[0].c2 = 0.25;
    if extras.weighed {
        case = with_ones(case);
        case.buses[1].weight = 0.75;
    }
    if extras.capped {
        let second = CorridorRecord {
            cap: 2,
            marked: true,
            ..case.corridors[0]
        };
        case.corridors.push(second);
        uniform_sheet(&mut case, plain_line(0.5, 100.0));
    }
    write_case(&case)
}

fn put_u16(file: &mut [u8], place: usize, value: u16) {
    file[place..place + 2].copy_from_slice(&value.to_le_bytes());
}

/// A count or target past its bound, or a count that the records do not keep.
pub fn counts(random: &mut Random, turn: usize, extras: Extras) -> Vec<u8> {
    let mut file = good_file(random, extras);
    match turn % 8 {
        0 => put_u16(&mut file, BUSES, random.pick(&[257, 300, u16::MAX])),
        1 => put_u16(&mut file, CORRIDORS, random.pick(&[257, 512, u16::MAX])),
        2 => put_u16(&mut file, GENERATORS, random.pick(&[129, 256, u16::MAX])),
        3 => file[REQUESTED] = random.pick(&[0, 6, 255]),
        4 => file[ABOVE] = random.pick(&[5, 6, 255]),
        5 => {
            let target: u32 = random.pick(&[65_537, 65_536, u32::MAX]);
            file[TARGET..TARGET + 4].copy_from_slice(&target.to_le_bytes());
        }
        6 => {
            let place = random.pick(&[BUSES, CORRIDORS, GENERATORS]);
            let count = u16::from(file[place]);
            put_u16(
                &mut file,
                place,
                random.pick(&[count + 1, count.saturating_sub(1)]),
            );
        }
        _ => {
            file[REQUESTED] = random.pick(&[1, 2, 5]);
            file[ABOVE] = random.pick(&[0, 1, 4]);
        }
    }
    if random.once_in(8) {
        file[MODE] = MOST_MODE + 1;
    }
    file
}

/// Places in `file` where a record of `mark` begins.
fn records(file: &[u8], mark: &[u8; 2]) -> Vec<usize> {
    (0..file.len().saturating_sub(1))
        .filter(|&i| &file[i..i + 2] == mark)
        .collect()
}

/// A mode, slack or basis past its bound.
pub fn small_fields(random: &mut Random, turn: usize, extras: Extras) -> Vec<u8> {
    let mut file = good_file(random, extras);
    let past = random.pick(&[2, 3, 128, 255]);
    let (mark, offset) = [(b"HD", MODE), (b"GE", 4), (b"LN", 34)][turn % 3];
    let places = records(&file, mark);
    if !places.is_empty() {
        let past = match (mark, past) {
            (b"HD", 3) => MOST_MODE + 1,
            _ => past,
        };
        file[random.pick(&places) + offset] = past;
    }
    if random.once_in(3) {
        // Another fault, before or after it.
        let place = random.below(file.len());
        file.truncate(place);
    }
    file
}

/// One record's mark made another.
pub fn marks(random: &mut Random, turn: usize, extras: Extras) -> Vec<u8> {
    let bus = if extras.weighed { b"BV" } else { b"BU" };
    let marks = [b"HD", b"LV", bus, b"GE", b"CO", b"LN", b"CP"];
    let mut file = good_file(random, extras);
    let kinds = if extras.capped { 7 } else { 6 };
    let places = records(&file, marks[turn % kinds]);
    if let Some(&place) = places.get(random.below(places.len().max(1))) {
        let other = random.pick(&[
            b"HD", b"LV", b"BU", b"GE", b"CO", b"LN", b"bu", b"BV", b"CP", b"\0\0",
        ]);
        file[place..place + 2].copy_from_slice(other);
        if random.once_in(3) {
            // 14 comes before 15 where the record is cut as well.
            file.truncate(place + random.from_to(2, 12));
        }
    }
    file
}

/// Zeros after the end, up to the largest file there is.
pub fn padded(random: &mut Random, _: usize, extras: Extras) -> Vec<u8> {
    let mut file = good_file(random, extras);
    let any = random.from_to(file.len(), MOST_BYTES);
    let length = random.pick(&[
        file.len() + 1,
        file.len() + 7,
        file.len() + 8,
        any,
        MOST_BYTES,
        MOST_BYTES,
    ]);
    file.resize(length, 0);
    file
}

/// One byte too many, or more.
pub fn padded_past(random: &mut Random, _: usize, extras: Extras) -> Vec<u8> {
    let mut file = match random.once_in(3) {
        true => Vec::new(),
        false => good_file(random, extras),
    };
    let byte = random.pick(&[0, 0, 1]);
    file.resize(MOST_BYTES + random.pick(&[1, 1, 2, 100, 4_465]), byte);
    file
}

/// A byte that is not zero among the padding; sometimes several.
pub fn after_the_end(random: &mut Random, _: usize, extras: Extras) -> Vec<u8> {
    let mut file = good_file(random, extras);
    let end = file.len();
    let length = random.pick(&[1, 8, 9, 40, 5_000, MOST_BYTES - end]);
    file.resize((end + length).min(MOST_BYTES), 0);
    let padding = file.len() - end;
    for _ in 0..random.from_to(1, 3) {
        let any = random.below(padding);
        file[end + random.pick(&[0, any, any, padding - 1])] = random.pick(&[1, 128, 255, b'L']);
    }
    file
}

pub fn cut(random: &mut Random, _: usize, extras: Extras) -> Vec<u8> {
    let mut file = match random.once_in(3) {
        true => {
            let case = middling_observe(random);
            write_case(&with_extras(random, case, extras))
        }
        false => good_file(random, extras),
    };
    file.truncate(random.below(file.len()));
    file
}

fn flip(random: &mut Random, file: &mut [u8], place: usize) {
    let bit = 1u8 << random.below(8);
    file[place] ^= random.pick(&[bit, bit, 255]);
}

pub fn flipped(random: &mut Random, _: usize, extras: Extras) -> Vec<u8> {
    let mut file = good_file(random, extras);
    for _ in 0..random.pick(&[1, 1, 1, 2, 5]) {
        let place = random.below(file.len());
        flip(random, &mut file, place);
    }
    file
}

/// The smallest file cut at each byte in turn, and whole.
pub fn cut_in_turn(_: &mut Random, turn: usize, extras: Extras) -> Vec<u8> {
    let mut file = smallest_file(extras);
    file.truncate(turn % (file.len() + 1));
    file
}

/// The smallest file with each byte flipped in turn.
pub fn flipped_in_turn(random: &mut Random, turn: usize, extras: Extras) -> Vec<u8> {
    let mut file = smallest_file(extras);
    let place = turn % file.len();
    flip(random, &mut file, place);
    file
}

/// A file of the right shape with any bits for some of its figures.
pub fn any_figures(random: &mut Random, _: usize, extras: Extras) -> Vec<u8> {
    let case = small_observe(random);
    let mut case = with_extras(random, case, extras);
    if extras.weighed {
        for bus in &mut case.buses {
            if random.once_in(8) {
                bus.weight = random.any_figure();
            }
        }
    }
    let figures = case
        .ladder
        .iter_mut()
        .chain(case.buses.iter_mut().map(|bus| &mut bus.reading))
        .chain(
            case.generators
                .iter_mut()
                .flat_map(|g| [&mut g.pmin, &mut g.pmax, &mut g.c1, &mut g.c2]),
        )
        .chain(
            case.corridors
                .iter_mut()
                .flat_map(|c| [&mut c.length, &mut c.share]),
        )
        .chain(
            case.sheet
                .iter_mut()
                .flat_map(|l| [&mut l.r, &mut l.x, &mut l.b, &mut l.rate]),
        );
    for figure in figures {
        if random.once_in(20) {
            *figure = match random.once_in(4) {
                true => f64::from_bits(0x7FF << 52 | random.bits() >> 12),
                false => random.any_figure(),
            };
        }
    }
    write_case(&case)
}

/// Noise, sometimes behind a good header.
pub fn any_bytes(random: &mut Random, turn: usize, extras: Extras) -> Vec<u8> {
    if turn.is_multiple_of(16) {
        return Vec::new();
    }
    let length = random.pick(&[1, 2, 14, 15, 16, 100, 1_000]);
    let mut file: Vec<u8> = (0..random.from_to(1, length))
        .map(|_| random.bits() as u8)
        .collect();
    if random.once_in(2) {
        let mut headed = good_file(random, extras);
        headed.truncate(15);
        headed.append(&mut file);
        return headed;
    }
    file
}
