//! Requests to lay a sheet by corridor out by level.

use super::rows::any_bits;
use super::{Family, Words};
use crate::generate::random::Random;
use crate::harness::sheet::ROW;
use crate::harness::tables::{MOST_CORRIDORS, MOST_LEVELS};

pub const FAMILIES: &[Family] = &[
    ("some corridors and levels", some),
    ("no corridor", no_corridor),
    ("counts at their bounds", at_bounds),
    ("a sheet of the wrong length", wrong_length),
    ("counts past their bounds", past_bounds),
];

/// Not among [`FAMILIES`], so that seeds make the requests that they made
/// before it, and with them the stored sample: the long batches have it.
pub const LARGEST: Family = ("256 corridors, 5 levels", largest);

/// The request, with `more` figures or places added, or left out.
fn ask(random: &mut Random, corridors: usize, levels: usize, more: [isize; 2]) -> Words {
    let [figures, places] = more.map(|more| (ROW * corridors * levels).saturating_add_signed(more));
    let figures: Vec<u64> = (0..figures).map(|_| any_bits(random)).collect();
    Words::new("LAID")
        .each([corridors, levels, figures.len()], Words::whole)
        .each(figures, Words::bits)
        .whole(places)
}

fn small(random: &mut Random) -> [usize; 2] {
    [random.from_to(1, 7), random.from_to(1, MOST_LEVELS)]
}

fn some(random: &mut Random) -> Words {
    let [corridors, levels] = small(random);
    ask(random, corridors, levels, [0, 0])
}

fn no_corridor(random: &mut Random) -> Words {
    let levels = random.from_to(1, MOST_LEVELS);
    ask(random, 0, levels, [0, 0])
}

fn at_bounds(random: &mut Random) -> Words {
    let (corridors, levels) = random.pick(&[
        (MOST_CORRIDORS, MOST_LEVELS),
        (MOST_CORRIDORS, 1),
        (1, MOST_LEVELS),
    ]);
    ask(random, corridors, levels, [0, 0])
}

fn largest(random: &mut Random) -> Words {
    ask(random, MOST_CORRIDORS, MOST_LEVELS, [0, 0])
}

/// Of a good or a bad count: 1 comes before 2.
fn wrong_length(random: &mut Random) -> Words {
    let good = small(random);
    let [corridors, levels] = random.pick(&[good, [3, 0], [2, MOST_LEVELS + 1]]);
    let one = random.pick(&[-5, -1, 1, 5]);
    let more = random.pick(&[[one, 0], [0, one], [one, one]]);
    ask(random, corridors, levels, more)
}

fn past_bounds(random: &mut Random) -> Words {
    let some = random.from_to(1, 4);
    let [corridors, levels] = random.pick(&[
        [some, 0],
        [some, MOST_LEVELS + 1],
        [MOST_CORRIDORS + 1, 1],
        [MOST_CORRIDORS + 1, MOST_LEVELS + 1],
    ]);
    ask(random, corridors, levels, [0, 0])
}
