//! Requests for a corridor's rows of one of two sheets.

use super::{Family, Words};
use crate::generate::random::Random;
use crate::harness::sheet::ROW;
use crate::harness::tables::{MOST_CORRIDORS, MOST_LEVELS};

pub const FAMILIES: &[Family] = &[
    ("of the surveyed sheet", of_surveyed),
    ("of the worked-out sheet", of_worked),
    ("the last surveyed and the first not", at_the_seam),
    ("none surveyed", none_surveyed),
    ("all surveyed", all_surveyed),
    ("large", large),
    ("a corridor past the count", past_corridors),
    ("more surveyed than corridors", too_many_surveyed),
    ("a sheet of the wrong length", wrong_length),
    ("counts past their bounds", past_bounds),
];

/// Not among [`FAMILIES`], so that seeds make the requests that they made
/// before it, and with them the stored sample: the long batches have it.
pub const LARGEST: Family = ("256 corridors, 5 levels, all surveyed", largest);

/// Counts of corridors, levels and surveyed corridors, and the corridor asked.
#[derive(Clone, Copy)]
struct Asked {
    corridors: usize,
    levels: usize,
    count: usize,
    corridor: usize,
}

/// The request, with `more` figures added to each sheet, or left out.
fn ask(random: &mut Random, asked: Asked, more: [isize; 2]) -> Words {
    let head = [asked.corridors, asked.levels, asked.count, asked.corridor];
    let words = Words::new("ROWS").each(head, Words::whole);
    [asked.count, asked.corridors]
        .iter()
        .zip(more)
        .fold(words, |words, (corridors, more)| {
            let figures = (ROW * corridors * asked.levels).saturating_add_signed(more);
            let figures: Vec<u64> = (0..figures).map(|_| any_bits(random)).collect();
            words.whole(figures.len()).each(figures, Words::bits)
        })
}

/// Any figure, sometimes a zero or a NaN, which are printed as one.
pub fn any_bits(random: &mut Random) -> u64 {
    match random.below(12) {
        0 => random.pick(&[0, 1 << 63, 0x7FF8_0000_0000_0001, u64::MAX]),
        _ => random.bits(),
    }
}

/// Small tables, some of the corridors surveyed.
fn some(random: &mut Random) -> Asked {
    let corridors = random.from_to(1, 6);
    Asked {
        corridors,
        levels: random.from_to(1, MOST_LEVELS),
        count: random.from_to(1, corridors),
        corridor: 0,
    }
}

fn of_surveyed(random: &mut Random) -> Words {
    let mut asked = some(random);
    asked.corridor = random.below(asked.count);
    ask(random, asked, [0, 0])
}

fn of_worked(random: &mut Random) -> Words {
    let mut asked = some(random);
    asked.count = random.below(asked.corridors);
    asked.corridor = random.from_to(asked.count, asked.corridors - 1);
    ask(random, asked, [0, 0])
}

fn at_the_seam(random: &mut Random) -> Words {
    let mut asked = some(random);
    asked.corridor = random.pick(&[asked.count - 1, asked.count]);
    ask(random, asked, [0, 0])
}

fn none_surveyed(random: &mut Random) -> Words {
    let mut asked = some(random);
    asked.count = 0;
    asked.corridor = random.below(asked.corridors);
    ask(random, asked, [0, 0])
}

fn all_surveyed(random: &mut Random) -> Words {
    let mut asked = some(random);
    asked.count = asked.corridors;
    asked.corridor = random.below(asked.corridors);
    ask(random, asked, [0, 0])
}

/// Up to two whole sheets at their bounds.
fn large(random: &mut Random) -> Words {
    let corridors = MOST_CORRIDORS;
    let asked = Asked {
        corridors,
        levels: random.from_to(1, MOST_LEVELS),
        count: random.pick(&[0, 1, corridors / 2, corridors]),
        corridor: random.below(corridors),
    };
    ask(random, asked, [0, 0])
}

/// Two whole sheets at their bounds.
fn largest(random: &mut Random) -> Words {
    let asked = Asked {
        corridors: MOST_CORRIDORS,
        levels: MOST_LEVELS,
        count: MOST_CORRIDORS,
        corridor: random.below(MOST_CORRIDORS),
    };
    ask(random, asked, [0, 0])
}

fn past_corridors(random: &mut Random) -> Words {
    let mut asked = some(random);
    asked.corridor = random.pick(&[asked.corridors, asked.corridors + 1, 400]);
    ask(random, asked, [0, 0])
}

fn too_many_surveyed(random: &mut Random) -> Words {
    let mut asked = some(random);
    asked.count = asked.corridors + 1;
    ask(random, asked, [0, 0])
}

fn wrong_length(random: &mut Random) -> Words {
    let asked = some(random);
    let one = random.pick(&[-5, -1, 1, 5]);
    let more = random.pick(&[[one, 0], [0, one], [one, -one]]);
    ask(random, asked, more)
}

fn past_bounds(random: &mut Random) -> Words {
    let mut asked = some(random);
    match random.below(3) {
        0 => asked.levels = 0,
        1 => asked.levels = MOST_LEVELS + 1,
        _ => {
            asked.corridors = MOST_CORRIDORS + 1;
            asked.levels = 1;
        }
    }
    ask(random, asked, [0, 0])
}
