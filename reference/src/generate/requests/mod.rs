//! Seeded requests: each kind has families, and every request says which
//! family it comes from, so that the count of branches can show them all.

mod angles;
mod bad;
mod dispatch;
mod impedance;
mod laid;
mod leaders;
mod placement;
mod preview;
mod rows;
mod sheet;
mod square_root;

pub use self::sheet::{BENDS, CLASS_BOUNDS};

use crate::generate::random::Random;
use crate::harness::figures::hex;

/// A batch is the input of one run of a program. Three of four have at most so
/// many bytes, and no line longer than [`USUAL_LINE`], so that they hold many
/// requests.
pub const USUAL_BYTES: usize = 65_536;
const USUAL_LINE: usize = 1_000;

/// Every fourth batch, the last of each four seeds, is a long one: it may have
/// so many bytes, lines of any length, and every other one a largest request.
pub const MOST_BYTES: usize = 1_048_576;

/// The most requests of one batch where only the bytes matter.
pub const MOST_REQUESTS: usize = 4_096;

/// Whether the batch of a seed is a long one.
pub fn is_long(seed: u64) -> bool {
    seed % 4 == 3
}

/// The kinds of request, `BAD` being lines that are none.
pub const KINDS: [&str; 11] = [
    "SQRT", "IMP", "LEAD", "DISP", "ANG", "PLACE", "SHEET", "ROWS", "LAID", "PREV", "BAD",
];

/// One line, without its line feed, and the family it comes from.
pub struct Request {
    pub family: &'static str,
    pub line: Vec<u8>,
}

/// A family: its name and how one of its lines is made.
pub type Family = (&'static str, fn(&mut Random) -> Words);

/// The families of a kind.
fn families(kind: &str) -> Option<&'static [Family]> {
    Some(match kind {
        "SQRT" => square_root::FAMILIES,
        "IMP" => impedance::FAMILIES,
        "LEAD" => leaders::FAMILIES,
        "DISP" => dispatch::FAMILIES,
        "ANG" => angles::FAMILIES,
        "PLACE" => placement::FAMILIES,
        "SHEET" => sheet::FAMILIES,
        "ROWS" => rows::FAMILIES,
        "LAID" => laid::FAMILIES,
        "PREV" => preview::FAMILIES,
        _ => return None,
    })
}

/// The family whose counts are all at their bounds, where a kind has counts.
pub fn largest(kind: &str) -> Option<Family> {
    match kind {
        "LEAD" => Some(leaders::LARGEST),
        "DISP" => Some(dispatch::LARGEST),
        "ANG" => Some(angles::LARGEST),
        "PLACE" => Some(placement::LARGEST),
        "SHEET" => Some(sheet::LARGEST),
        "ROWS" => Some(rows::LARGEST),
        "LAID" => Some(laid::LARGEST),
        "PREV" => Some(preview::LARGEST),
        _ => None,
    }
}

/// Names of all families of a kind.
pub fn family_names(kind: &str) -> Vec<&'static str> {
    match families(kind) {
        Some(families) => families.iter().map(|&(name, _)| name).collect(),
        None => bad::family_names(),
    }
}

/// At most `count` requests of one kind, with their line feeds at most the
/// bytes of the seed's batch; `None` for an unknown kind.
pub fn batch(kind: &str, seed: u64, count: usize) -> Option<Vec<Request>> {
    if !KINDS.contains(&kind) {
        return None;
    }
    let (most_bytes, longest) = match is_long(seed) {
        true => (MOST_BYTES, MOST_BYTES),
        false => (USUAL_BYTES, USUAL_LINE),
    };
    let mut random = Random::new(kind, seed);
    let mut requests: Vec<Request> = Vec::new();
    let mut bytes = 0;
    while requests.len() < count {
        let in_turn = match requests.len() % 2 {
            1 => in_turn(kind, seed, requests.len() / 2, &mut random),
            _ => None,
        };
        let request = in_turn.unwrap_or_else(|| one(kind, &mut random));
        if request.line.len() > longest {
            continue;
        }
        bytes += request.line.len() + 1;
        if bytes > most_bytes {
            break;
        }
        requests.push(request);
    }
    Some(requests)
}

/// What takes every other place of a batch, where something does: the ends of
/// binades; in a long batch the largest requests, and two lines that are longer
/// than every request.
fn in_turn(kind: &str, seed: u64, turn: usize, random: &mut Random) -> Option<Request> {
    match kind {
        "SQRT" => square_root::binades(seed).nth(turn),
        _ if !is_long(seed) => None,
        "BAD" => (turn < 2).then(|| bad::overlong(random)),
        _ => largest(kind).map(|family| of_family(family, random)),
    }
}

fn of_family((family, words): Family, random: &mut Random) -> Request {
    Request {
        family,
        line: words(random).line(),
    }
}

fn one(kind: &str, random: &mut Random) -> Request {
    match families(kind) {
        Some(families) => of_family(random.pick(families), random),
        None => bad::one(random),
    }
}

/// A batch as the input of a program.
pub fn as_input(requests: &[Request]) -> Vec<u8> {
    let mut input = Vec::new();
    for request in requests {
        input.extend_from_slice(&request.line);
        input.push(b'\n');
    }
    input
}

/// A line put together word by word.
#[derive(Clone)]
pub struct Words(String);

impl Words {
    fn new(word: &str) -> Self {
        Self(word.to_owned())
    }
    fn whole(mut self, n: usize) -> Self {
        self.0 += &format!(" {n}");
        self
    }
    fn bits(mut self, bits: u64) -> Self {
        self.0 += " ";
        self.0 += &hex(bits);
        self
    }
    fn figure(self, v: f64) -> Self {
        self.bits(v.to_bits())
    }
    fn each<T>(self, items: impl IntoIterator<Item = T>, put: impl Fn(Self, T) -> Self) -> Self {
        items.into_iter().fold(self, put)
    }
    fn line(self) -> Vec<u8> {
        self.0.into_bytes()
    }
}
