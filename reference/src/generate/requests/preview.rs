//! Requests for the preview of a filling.

use super::{Family, Words};
use crate::generate::cases::{case_file, some_seed};
use crate::generate::random::Random;
use crate::harness::answers::MOST_COUNT;
use crate::harness::case_file::read_case;
use crate::harness::checks::MOST_CAP;
use crate::harness::preview::{Kept, EXPAND, FULL, MOST_CIRCUITS};
use crate::harness::tables::{MOST_CORRIDORS, MOST_MODE, MOST_TARGET, SERVING};

pub const FAMILIES: &[Family] = &[
    ("filled to the target", to_target),
    ("filled to the target", to_target),
    ("filled to the caps", to_caps),
    ("nothing to fill", nothing_to_fill),
    ("about a whole turn", whole_turns),
    ("counts above four", above_four),
    ("each with a cap of its own", all_capped),
    ("counts about their caps", about_caps),
    ("of a seeded plan", of_a_plan),
    ("no corridor", no_corridor),
    ("large", large),
    ("at its bounds", at_bounds),
    LARGEST,
    ("corridors past their bound", past_corridors),
    ("a target past its bound", past_target),
    ("another mode", another_mode),
    ("a count outside 1 to 64", bad_count),
    ("a cap above six", bad_cap),
    ("a place that names none", names_none),
    ("a place that names one again", names_again),
    ("faults in several places", several_faults),
    ("leading zeros", leading_zeros),
];

pub const LARGEST: Family = ("256 corridors", largest);

fn ask(kept: &Kept, target: usize) -> Words {
    Words::new("PREV")
        .whole(kept.mode.into())
        .whole(target)
        .whole(kept.before.len())
        .each(kept.before.iter().copied(), Words::whole)
        .each(kept.cap.iter().copied(), Words::whole)
        .each(kept.order.iter().copied(), Words::whole)
}

/// A record that is answered: some counts, most of them low, in some order;
/// every other one with some caps. Both modes that fill have their turn.
fn record(random: &mut Random, corridors: usize) -> Kept {
    let most = random.pick(&[1, 2, 4, 6]);
    let kept = Kept {
        mode: [EXPAND, SERVING][corridors % 2],
        before: (0..corridors).map(|_| random.from_to(1, most)).collect(),
        cap: vec![0; corridors],
        order: random.shuffled(corridors),
    };
    match random.once_in(2) {
        true => kept,
        false => with_caps(random, kept, 0),
    }
}

/// The record with caps from `least` on.
fn with_caps(random: &mut Random, mut kept: Kept, least: usize) -> Kept {
    for cap in &mut kept.cap {
        *cap = random.from_to(least, MOST_CAP.into());
    }
    kept
}

fn some_record(random: &mut Random) -> Kept {
    let corridors = random.from_to(1, 40);
    record(random, corridors)
}

fn total(kept: &Kept) -> usize {
    kept.before.iter().sum()
}

/// From one more than there are to one less than there may be.
fn to_target(random: &mut Random) -> Words {
    let kept = some_record(random);
    let (least, most) = (total(&kept), kept.when_full());
    ask(&kept, random.from_to(least, most))
}

fn to_caps(random: &mut Random) -> Words {
    let kept = some_record(random);
    let most = kept.when_full();
    let target = random.pick(&[most, most + 1, 2 * most, MOST_TARGET]);
    ask(&kept, target)
}

fn nothing_to_fill(random: &mut Random) -> Words {
    let kept = some_record(random);
    let most = total(&kept);
    ask(&kept, random.pick(&[0, 1, most - 1, most]))
}

/// Equal counts: after each turn every corridor has one more.
fn whole_turns(random: &mut Random) -> Words {
    let mut kept = some_record(random);
    let each = random.from_to(1, FULL);
    kept.before.fill(each);
    let turns = random.from_to(0, FULL) * kept.before.len();
    let target = total(&kept) + turns + random.below(3);
    ask(&kept, target.saturating_sub(1))
}

fn above_four(random: &mut Random) -> Words {
    let mut kept = some_record(random);
    for count in &mut kept.before {
        if random.once_in(3) {
            *count = random.from_to(FULL, MOST_CIRCUITS);
        }
    }
    let (least, most) = (total(&kept), kept.when_full());
    ask(&kept, random.from_to(least, most + 1))
}

fn all_capped(random: &mut Random) -> Words {
    let kept = some_record(random);
    let kept = with_caps(random, kept, 1);
    let (least, most) = (total(&kept), kept.when_full());
    ask(&kept, random.from_to(least, most + 1))
}

/// Each count at its corridor's cap, or one beside it.
fn about_caps(random: &mut Random) -> Words {
    let kept = some_record(random);
    let mut kept = with_caps(random, kept, 0);
    for corridor in 0..kept.before.len() {
        let full = kept.full(corridor);
        kept.before[corridor] = random.pick(&[full - 1, full, full + 1]).max(1);
    }
    let (least, most) = (total(&kept), kept.when_full());
    ask(&kept, random.from_to(least, most + 1))
}

/// What the plan of a seeded case keeps, not large.
fn of_a_plan(random: &mut Random) -> Words {
    loop {
        let Ok(case) = read_case(&case_file(some_seed(random)).bytes) else {
            continue;
        };
        if case.corridors.len() > 30 {
            continue;
        }
        if let Ok(kept) = Kept::of(&case) {
            let target = random.below(kept.when_full() + 2);
            return ask(&kept, target);
        }
    }
}

fn no_corridor(random: &mut Random) -> Words {
    let kept = record(random, 0);
    ask(&kept, random.pick(&[0, 1, MOST_TARGET, MOST_TARGET + 1]))
}

fn large(random: &mut Random) -> Words {
    let corridors = random.from_to(100, MOST_CORRIDORS);
    let kept = record(random, corridors);
    let target = random.below(kept.when_full() + 2);
    ask(&kept, target)
}

fn at_bounds(random: &mut Random) -> Words {
    let corridors = random.pick(&[1, 2, MOST_CORRIDORS - 1, MOST_CORRIDORS]);
    let mut kept = record(random, corridors);
    for count in &mut kept.before {
        *count = random.pick(&[
            1,
            FULL - 1,
            FULL,
            FULL + 1,
            MOST_CIRCUITS - 1,
            MOST_CIRCUITS,
        ]);
    }
    ask(&kept, random.pick(&[0, MOST_TARGET - 1, MOST_TARGET]))
}

fn largest(random: &mut Random) -> Words {
    let kept = record(random, MOST_CORRIDORS);
    let (least, most) = (total(&kept), kept.when_full());
    ask(&kept, random.from_to(least, most))
}

/// Too many corridors; the rest may be faulty too, which 2 comes before.
fn past_corridors(random: &mut Random) -> Words {
    let corridors = random.pick(&[MOST_CORRIDORS + 1, 300, MOST_COUNT]);
    let mut kept = record(random, corridors);
    if random.once_in(2) {
        kept.mode = random.from_to(0, MOST_MODE.into()) as u8;
        kept.before[0] = 0;
    }
    ask(&kept, random.below(2_000))
}

fn past_target(random: &mut Random) -> Words {
    let mut kept = some_record(random);
    kept.mode = random.pick(&[EXPAND, SERVING, 1, 5]);
    ask(&kept, random.pick(&[MOST_TARGET + 1, 100_000, 999_999_999]))
}

/// The zeros of such a plan, or figures that no plan of ours leaves.
fn another_mode(random: &mut Random) -> Words {
    let mut kept = some_record(random);
    kept.mode = random.pick(&[1, 2, 4, 5]);
    if random.once_in(2) {
        kept.before.fill(0);
        kept.order.fill(0);
    }
    ask(&kept, random.below(200))
}

fn bad_count(random: &mut Random) -> Words {
    let mut kept = some_record(random);
    let corridor = random.below(kept.before.len());
    kept.before[corridor] = random.pick(&[0, MOST_CIRCUITS + 1, 256, 65_536, 999_999_999]);
    ask(&kept, random.below(200))
}

/// Sometimes beside a faulty count; the lower corridor decides.
fn bad_cap(random: &mut Random) -> Words {
    let mut kept = some_record(random);
    let corridors = kept.cap.len();
    let corridor = random.below(corridors);
    kept.cap[corridor] = random.pick(&[7, 8, 128, 255, 256, 999_999_999]);
    if random.once_in(3) {
        kept.before[random.below(corridors)] = 0;
    }
    ask(&kept, random.below(200))
}

fn names_none(random: &mut Random) -> Words {
    let mut kept = some_record(random);
    let corridors = kept.order.len();
    let place = random.below(corridors);
    kept.order[place] = random.pick(&[corridors, corridors + 1, 256, 65_536, 999_999_999]);
    ask(&kept, random.below(200))
}

/// The index is the later of the two places.
fn names_again(random: &mut Random) -> Words {
    let corridors = random.from_to(2, 40);
    let mut kept = record(random, corridors);
    let later = random.from_to(1, corridors - 1);
    kept.order[later] = kept.order[random.below(later)];
    ask(&kept, random.below(200))
}

fn several_faults(random: &mut Random) -> Words {
    let mut kept = some_record(random);
    for count in &mut kept.before {
        if random.once_in(8) {
            *count = random.pick(&[0, MOST_CIRCUITS + 1]);
        }
    }
    for cap in &mut kept.cap {
        if random.once_in(8) {
            *cap = 7;
        }
    }
    let corridors = kept.order.len();
    for place in &mut kept.order {
        if random.once_in(4) {
            *place = random.below(corridors + 1);
        }
    }
    ask(&kept, random.below(200))
}

fn leading_zeros(random: &mut Random) -> Words {
    let (target, count) = (random.below(12), random.from_to(1, 6));
    Words::new(&format!(
        "PREV 00 {target:0>9} 02 {count:0>9} 001 000000006 00 1 00"
    ))
}
