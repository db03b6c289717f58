//! Requests for leaders.

use super::{Family, Words};
use crate::generate::random::Random;
use crate::harness::answers::MOST_COUNT;
use crate::harness::tables::{MOST_BUSES, MOST_CORRIDORS};

pub const FAMILIES: &[Family] = &[
    ("small", small),
    ("small", small),
    ("chain", chain),
    ("star", star),
    ("ring", ring),
    ("pairs, then pairs of pairs", doubling),
    ("no corridor", no_corridor),
    ("large", large),
    ("at its bounds", at_bounds),
    LARGEST,
    ("count past its bound", past_bounds),
    ("an end past the buses", far_end),
    ("equal ends", equal_ends),
    ("faults in several corridors", several_faults),
    ("leading zeros", leading_zeros),
];

pub const LARGEST: Family = ("256 buses, 256 corridors", largest);

type Ends = Vec<(usize, usize)>;

fn ask(buses: usize, ends: &[(usize, usize)]) -> Words {
    Words::new("LEAD")
        .whole(buses)
        .whole(ends.len())
        .each(ends, |words, &(a, b)| words.whole(a).whole(b))
}

/// Two different buses of at least two.
pub fn pair(random: &mut Random, buses: usize) -> (usize, usize) {
    let a = random.below(buses);
    (a, (a + random.from_to(1, buses - 1)) % buses)
}

fn pairs(random: &mut Random, buses: usize, count: usize) -> Ends {
    (0..count).map(|_| pair(random, buses)).collect()
}

fn small(random: &mut Random) -> Words {
    let buses = random.from_to(2, 7);
    let corridors = random.below(9);
    ask(buses, &pairs(random, buses, corridors))
}

/// The ends in either order, the corridors in order, backwards or shuffled.
fn laid_out(random: &mut Random, mut ends: Ends) -> Ends {
    match random.below(3) {
        0 => ends.reverse(),
        1 => {
            let order = random.shuffled(ends.len());
            ends = order.into_iter().map(|i| ends[i]).collect();
        }
        _ => {}
    }
    let turn = random.below(3);
    ends.into_iter()
        .map(|(a, b)| match turn == 0 || turn == 1 && random.once_in(2) {
            true => (b, a),
            false => (a, b),
        })
        .collect()
}

fn chain(random: &mut Random) -> Words {
    let buses = random.from_to(2, 40);
    let names = random.shuffled(buses);
    let ends = (1..buses).map(|i| (names[i - 1], names[i])).collect();
    ask(buses, &laid_out(random, ends))
}

fn star(random: &mut Random) -> Words {
    let buses = random.from_to(2, 40);
    let hub = random.below(buses);
    let ends = (0..buses).filter(|&i| i != hub).map(|i| (hub, i)).collect();
    ask(buses, &laid_out(random, ends))
}

fn ring(random: &mut Random) -> Words {
    let buses = random.from_to(3, 40);
    let ends = (0..buses).map(|i| (i, (i + 1) % buses)).collect();
    ask(buses, &laid_out(random, ends))
}

/// Sets of equal size joined again and again make the deepest trees.
fn doubling(random: &mut Random) -> Words {
    let names = random.shuffled(64);
    let mut ends = Ends::new();
    let mut width = 1;
    while width < 64 {
        for first in (0..64).step_by(2 * width) {
            let (a, b) = (random.below(width), random.below(width));
            ends.push((names[first + a], names[first + width + b]));
        }
        width *= 2;
    }
    ask(64, &ends)
}

fn no_corridor(random: &mut Random) -> Words {
    ask(random.pick(&[0, 0, 1, 1, 5, 30]), &[])
}

fn large(random: &mut Random) -> Words {
    let buses = random.from_to(100, MOST_BUSES);
    let corridors = random.from_to(50, MOST_CORRIDORS);
    ask(buses, &pairs(random, buses, corridors))
}

fn at_bounds(random: &mut Random) -> Words {
    let buses = random.pick(&[MOST_BUSES - 1, MOST_BUSES]);
    let corridors = random.pick(&[0, MOST_CORRIDORS - 1, MOST_CORRIDORS]);
    ask(buses, &pairs(random, buses, corridors))
}

fn largest(random: &mut Random) -> Words {
    let ends = pairs(random, MOST_BUSES, MOST_CORRIDORS);
    ask(MOST_BUSES, &laid_out(random, ends))
}

/// A count past its bound, its first value past it included; the corridors
/// may be faulty too, which 2 comes before.
fn past_bounds(random: &mut Random) -> Words {
    let past = random.pick(&[MOST_BUSES + 1, 300, MOST_COUNT]);
    match random.below(3) {
        0 => ask(past, &pairs(random, past, 3)),
        1 => ask(5, &pairs(random, 9, past)),
        _ => ask(past, &pairs(random, past, past)),
    }
}

fn with_fault(random: &mut Random, fault: fn(&mut Random, usize) -> (usize, usize)) -> Words {
    let buses = random.from_to(2, 30);
    let corridors = random.from_to(1, 20);
    let mut ends = pairs(random, buses, corridors);
    let place = random.below(corridors);
    ends[place] = fault(random, buses);
    ask(buses, &ends)
}

fn far(random: &mut Random, buses: usize) -> (usize, usize) {
    let past = random.pick(&[buses, buses + 1, 65_536, 999_999_999]);
    let good = random.below(buses);
    random.pick(&[(past, good), (good, past), (past, past)])
}

fn far_end(random: &mut Random) -> Words {
    with_fault(random, far)
}

fn equal_ends(random: &mut Random) -> Words {
    with_fault(random, |random, buses| {
        let bus = random.below(buses);
        (bus, bus)
    })
}

fn several_faults(random: &mut Random) -> Words {
    let buses = random.below(6);
    let corridors = random.from_to(1, 12);
    let ends: Ends = (0..corridors)
        .map(|_| (random.below(7), random.below(7)))
        .collect();
    ask(buses, &ends)
}

fn leading_zeros(random: &mut Random) -> Words {
    let (a, b) = pair(random, 4);
    Words::new(&format!("LEAD 000000004 01 {a:0>9} {b:0>2}"))
}
