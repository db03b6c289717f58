//! Lines that are no request, or nearly none: good lines with one thing wrong.

use super::{families, Request};
use crate::generate::random::Random;

/// What is done to a good line.
type Damage = fn(&mut Random, Vec<u8>) -> Vec<u8>;

pub const FAMILIES: &[(&str, Damage)] = &[
    ("empty", |_, _| Vec::new()),
    ("spaces only", |random, _| vec![b' '; random.from_to(1, 3)]),
    ("a byte changed", change_byte),
    ("a byte put in", put_byte),
    ("a byte left out", drop_byte),
    ("a field left out", drop_field),
    ("a field put in", put_field),
    ("two fields exchanged", exchange_fields),
    ("a space doubled", double_space),
    ("a space before or after", space_outside),
    ("lower case", |_, line| line.to_ascii_lowercase()),
    ("cut", cut),
    ("another word", another_word),
    ("a word alone", |random, _| random.pick(WORDS).to_vec()),
    ("a count too large", |random, _| {
        random.pick(LARGE_COUNTS).to_vec()
    }),
    ("a number too long", |random, _| {
        random.pick(LONG_NUMBERS).to_vec()
    }),
    ("a guess that is neither 0 nor 1", |random, _| {
        random.pick(GUESSES).to_vec()
    }),
    ("a mode above 5", |random, _| random.pick(MODES).to_vec()),
    ("any bytes", any_bytes),
];

const WORDS: &[&[u8]] = &[
    b"SQRT", b"IMP", b"LEAD", b"DISP", b"ANG", b"PLACE", b"SHEET", b"ROWS", b"LAID", b"PREV",
    b"RF", b"OK", b"??",
];

const LARGE_COUNTS: &[&[u8]] = &[
    b"LEAD 401 0",
    b"LEAD 0 401",
    b"LEAD 3 999999999 0 1",
    b"DISP 401 0000000000000000",
    b"DISP 4294967297 0000000000000000 0000000000000000 0000000000000000 0000000000000000 0000000000000000",
    b"ANG 401 0 0 0",
    b"ANG 0 401 0 0",
    b"ANG 0 0 401 0",
    b"PLACE 401 0 0",
    b"PLACE 0 401 0",
    b"PLACE 0 0 401",
    b"SHEET 7 4059000000000000 4058000000000000 4057000000000000 4056000000000000 4055000000000000 4054000000000000 4053000000000000 0",
    b"SHEET 1 4059000000000000 258",
    b"ROWS 401 1 0 0 0 0",
    b"ROWS 1 1 0 401 0 0",
    b"ROWS 1 1 0 0 7711 0",
    b"ROWS 1 1 0 0 0 999999999",
    b"LAID 401 1 0 0",
    b"LAID 1 401 0 0",
    b"LAID 1 1 7711 0",
    b"LAID 1 1 0 7711",
    b"PREV 0 0 401",
    b"PREV 0 0 999999999 1 0",
];

const LONG_NUMBERS: &[&[u8]] = &[
    b"LEAD 0000000002 0",
    b"LEAD 2 1 0000000000 1",
    b"LEAD 2 1 1000000000 1",
    b"LEAD 2 1 4294967296 1",
    b"LEAD 2 1 18446744073709551616 1",
    b"IMP 04059000000000000",
    b"IMP 405900000000000",
    b"IMP +059000000000000",
    b"IMP 0x59000000000000",
    b"SQRT 3FF0000000000000.",
    b"LEAD +2 0",
    b"LEAD 2 -0",
    b"LEAD 2 1 0.0 1",
    b"LEAD 2 1 0x0 1",
];

const GUESSES: &[&[u8]] = &[
    b"ANG 0 0 0 2",
    b"ANG 0 0 0 10",
    b"ANG 1 0 1 2 0000000000000000 0 0000000000000000",
    b"ANG 1 0 1 0 0000000000000000 0 0000000000000000",
    b"ANG 1 0 1 1 0000000000000000 0",
];

const MODES: &[&[u8]] = &[
    b"PREV 6 0 0",
    b"PREV 6 0 1 1 0 0",
    b"PREV 256 0 1 1 0 0",
    b"PREV 999999999 2 1 1 0 0",
];

/// A family of long batches alone: a batch holds two.
const OVERLONG: &str = "longer than every request";

/// The bytes of the longest line that the program takes for a request; none of
/// ours is as long.
const MOST_LINE: usize = 300_000;

pub fn family_names() -> Vec<&'static str> {
    let names = FAMILIES.iter().map(|&(name, _)| name);
    names.chain([OVERLONG]).collect()
}

/// A line with a request at its end, which a program that cuts the line may
/// take for one.
pub fn overlong(random: &mut Random) -> Request {
    let before = random.from_to(MOST_LINE - 2, MOST_LINE + 2);
    let mut line = vec![random.pick(b" 0A"); before];
    line.extend(good_line(random));
    Request {
        family: OVERLONG,
        line,
    }
}

/// A damaged line; by chance it may still be a request, which is no harm.
pub fn one(random: &mut Random) -> Request {
    let (family, damage) = random.pick(FAMILIES);
    let good = good_line(random);
    let line = damage(random, good);
    debug_assert!(!line.contains(&b'\n'));
    Request { family, line }
}

/// A good line short enough to leave room for many.
fn good_line(random: &mut Random) -> Vec<u8> {
    loop {
        let kind = random.pick(&[
            "SQRT", "IMP", "LEAD", "DISP", "ANG", "PLACE", "SHEET", "ROWS", "LAID", "PREV",
        ]);
        let (_, words) = random.pick(families(kind).expect("a kind of request"));
        let line = words(random).line();
        if line.len() <= 300 {
            return line;
        }
    }
}

/// Any byte but a line feed, most often one of those that requests hold.
fn any_byte(random: &mut Random) -> u8 {
    match random.below(6) {
        0 => b' ',
        1 => random.pick(b"0123456789ABCDEF"),
        2 => random.pick(b"abcdefgGxX+-.,\t\r\0"),
        _ => match random.below(256) as u8 {
            b'\n' => b'\r',
            byte => byte,
        },
    }
}

fn change_byte(random: &mut Random, mut line: Vec<u8>) -> Vec<u8> {
    let place = random.below(line.len());
    line[place] = any_byte(random);
    line
}

fn put_byte(random: &mut Random, mut line: Vec<u8>) -> Vec<u8> {
    let byte = any_byte(random);
    line.insert(random.below(line.len() + 1), byte);
    line
}

fn drop_byte(random: &mut Random, mut line: Vec<u8>) -> Vec<u8> {
    line.remove(random.below(line.len()));
    line
}

fn fields(line: &[u8]) -> Vec<&[u8]> {
    line.split(|&c| c == b' ').collect()
}

fn drop_field(random: &mut Random, line: Vec<u8>) -> Vec<u8> {
    let mut fields = fields(&line);
    fields.remove(random.below(fields.len()));
    fields.join(&b' ')
}

fn put_field(random: &mut Random, line: Vec<u8>) -> Vec<u8> {
    let mut fields = fields(&line);
    let field: &[u8] = random.pick(&[b"0", b"1", b"0000000000000000", b"4059000000000000", b"A"]);
    fields.insert(random.below(fields.len() + 1), field);
    fields.join(&b' ')
}

fn exchange_fields(random: &mut Random, line: Vec<u8>) -> Vec<u8> {
    let mut fields = fields(&line);
    let (i, j) = (random.below(fields.len()), random.below(fields.len()));
    fields.swap(i, j);
    fields.join(&b' ')
}

fn double_space(random: &mut Random, mut line: Vec<u8>) -> Vec<u8> {
    let spaces: Vec<usize> = (0..line.len()).filter(|&i| line[i] == b' ').collect();
    line.insert(random.pick(&spaces), b' ');
    line
}

fn space_outside(random: &mut Random, mut line: Vec<u8>) -> Vec<u8> {
    match random.once_in(2) {
        true => line.insert(0, b' '),
        false => line.push(random.pick(b" \t\r")),
    }
    line
}

fn cut(random: &mut Random, mut line: Vec<u8>) -> Vec<u8> {
    line.truncate(random.below(line.len()));
    line
}

fn another_word(random: &mut Random, line: Vec<u8>) -> Vec<u8> {
    let mut fields = fields(&line);
    fields[0] = random.pick(&[
        &b"SQR"[..],
        b"SQRTS",
        b"sqrt",
        b"IMPL",
        b"LEA",
        b"DISPATCH",
        b"AND",
        b"PLACES",
        b"SHEETS",
        b"ROW",
        b"PREVIEW",
        b"",
        b"0",
    ]);
    fields.join(&b' ')
}

fn any_bytes(random: &mut Random, _: Vec<u8>) -> Vec<u8> {
    let length = random.below(60);
    (0..length).map(|_| any_byte(random)).collect()
}
