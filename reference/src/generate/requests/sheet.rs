//! Requests for the line office's sheet.

use super::{Family, Words};
use crate::electrical::params::LINE_CLASSES;
use crate::generate::random::Random;
use crate::harness::answers::MOST_SHEET_LEVELS;
use crate::harness::tables::{MOST_CORRIDORS, MOST_LEVELS};

pub const FAMILIES: &[Family] = &[
    ("ordinary", ordinary),
    ("ordinary", ordinary),
    ("any kV", any_kv),
    ("around the class bounds", class_bounds),
    ("around the class bounds", class_bounds),
    ("around the knots", knots),
    ("around the knots", knots),
    ("around the spread's bounds", spread_bounds),
    ("around the basis", around_the_basis),
    ("short lines", short_lines),
    ("past the last knot", long_lines),
    ("tiny kV", tiny_kv),
    ("no corridor", no_corridor),
    ("large", large),
    ("at its bounds", at_bounds),
    LARGEST,
    ("count past its bound", past_bounds),
    ("a level at fault", level_fault),
    ("a length at fault", length_fault),
    ("a spread at fault", spread_fault),
    ("faults in several places", several_faults),
];

pub const LARGEST: Family = ("256 corridors, 5 levels", largest);

/// The greatest kV whose square, rounded, is at most the product of two
/// neighbouring classes.
pub const CLASS_BOUNDS: [f64; 6] = [
    618.465_843_842_649_1,
    415.331_193_145_903_74,
    281.691_320_420_065_44,
    178.157_233_925_541_16,
    125.976_188_226_188_2,
    89.078_616_962_770_58,
];

/// Where the curve's rule changes: at 1e-3 km, at the knots and where the
/// floor is reached.
pub const BENDS: [f64; 8] = [1e-3, 80.0, 160.0, 320.0, 480.0, 640.0, 965.0, 2171.25];

const LEAST_SPREAD: f64 = 0.25;
const MOST_SPREAD: f64 = 4.0;
const MOST_KM: f64 = 10_000.0;
const MOST_KV: f64 = 10_000.0;

type Corridors = Vec<(f64, f64)>;

fn ask(ladder: &[f64], corridors: &[(f64, f64)]) -> Words {
    Words::new("SHEET")
        .whole(ladder.len())
        .each(ladder, |words, &kv| words.figure(kv))
        .whole(corridors.len())
        .each(corridors, |words, &(km, spread)| {
            words.figure(km).figure(spread)
        })
}

/// `v` moved by so many last places.
fn moved(v: f64, places: i64) -> f64 {
    f64::from_bits(v.to_bits().wrapping_add_signed(places))
}

/// Levels in falling order, none too near the next.
fn ladder_of(mut kvs: Vec<f64>) -> Vec<f64> {
    kvs.sort_by(|a, b| b.total_cmp(a));
    kvs.dedup_by(|next, kv| *kv <= *next + 1e-6);
    kvs
}

/// Levels that are in use somewhere.
fn usual_ladder(random: &mut Random) -> Vec<f64> {
    const USUAL: [f64; 14] = [
        20.0, 34.5, 66.0, 69.0, 110.0, 115.0, 138.0, 161.0, 220.0, 230.0, 345.0, 400.0, 500.0,
        765.0,
    ];
    let count = random.from_to(1, MOST_LEVELS);
    ladder_of((0..count).map(|_| random.pick(&USUAL)).collect())
}

fn usual_spread(random: &mut Random) -> f64 {
    match random.below(4) {
        0 => random.pick(&[0.25, 0.5, 1.0, 1.5, 4.0]),
        _ => random.log_between(LEAST_SPREAD, MOST_SPREAD),
    }
}

fn usual_corridors(random: &mut Random, count: usize) -> Corridors {
    (0..count)
        .map(|_| {
            let km = match random.below(4) {
                0 => random.between(0.0, MOST_KM),
                1 => random.from_to(0, 1_200) as f64,
                _ => random.between(0.0, 1_200.0),
            };
            (km, usual_spread(random))
        })
        .collect()
}

fn some_corridors(random: &mut Random) -> Corridors {
    let count = random.from_to(1, 12);
    usual_corridors(random, count)
}

fn ordinary(random: &mut Random) -> Words {
    ask(&usual_ladder(random), &some_corridors(random))
}

fn any_kv(random: &mut Random) -> Words {
    let count = random.from_to(1, MOST_LEVELS);
    let kvs = (0..count).map(|_| random.log_between(1.0, MOST_KV));
    let ladder = ladder_of(kvs.collect());
    ask(&ladder, &some_corridors(random))
}

/// Five of the six bounds, each at most a few last places off.
fn class_bounds(random: &mut Random) -> Words {
    let mut ladder = CLASS_BOUNDS.to_vec();
    ladder.remove(random.below(ladder.len()));
    for kv in &mut ladder {
        *kv = match random.once_in(2) {
            true => moved(*kv, random.below(3) as i64 - 1),
            false => random.near(*kv, 8),
        };
    }
    ask(&ladder, &some_corridors(random))
}

/// Each bend, and one last place off on either side.
fn knots(random: &mut Random) -> Words {
    let ladder: Vec<f64> = usual_ladder(random).into_iter().take(2).collect();
    let corridors: Corridors = BENDS
        .iter()
        .flat_map(|&km| [-1, 0, 1].map(|places| moved(km, places)))
        .map(|km| (km, usual_spread(random)))
        .collect();
    ask(&ladder, &corridors)
}

fn spread_bounds(random: &mut Random) -> Words {
    let inside = [
        LEAST_SPREAD,
        moved(LEAST_SPREAD, 1),
        moved(1.0, -1),
        1.0,
        moved(1.0, 1),
        moved(MOST_SPREAD, -1),
        MOST_SPREAD,
    ];
    let corridors: Corridors = inside
        .map(|spread| (random.between(0.0, 1_200.0), spread))
        .to_vec();
    let ladder = ladder_of(vec![random.pick(&[345.0, 500.0, 765.0]), 230.0]);
    ask(&ladder, &corridors)
}

/// Lengths at which a class's loadability is about its rating.
fn around_the_basis(random: &mut Random) -> Words {
    let class = random.pick(&LINE_CLASSES);
    let kv = class.kv * random.between(0.9, 1.1);
    let multiple = class.thermal_mva / (class.sil_mw * (kv / class.kv));
    let km = 240.0 / multiple;
    let corridors: Corridors = (0..6)
        .map(|_| {
            let km = match km <= 80.0 {
                true => random.near(km, 4),
                false => random.between(80.0, 400.0),
            };
            (km, usual_spread(random))
        })
        .collect();
    ask(&[kv], &corridors)
}

fn short_lines(random: &mut Random) -> Words {
    let tiny = random.log_between(1e-300, 1e-3);
    let lengths = [
        0.0,
        -0.0,
        f64::from_bits(1),
        tiny,
        random.between(0.0, 80.0),
    ];
    let corridors = lengths.map(|km| (km, usual_spread(random)));
    ask(&usual_ladder(random), &corridors)
}

fn long_lines(random: &mut Random) -> Words {
    let lengths = [
        moved(MOST_KM, -1),
        MOST_KM,
        random.between(965.0, 2_200.0),
        random.between(965.0, MOST_KM),
    ];
    let corridors = lengths.map(|km| (km, usual_spread(random)));
    ask(&usual_ladder(random), &corridors)
}

/// Down to the least figure, whose square is zero.
fn tiny_kv(random: &mut Random) -> Words {
    let least = random.log_between(f64::from_bits(1), 1e-150);
    let low = random.log_between(1e-3, 1.0);
    let ladder = match random.below(3) {
        0 => vec![least],
        1 => ladder_of(vec![random.pick(&[0.5, 1.0]), least]),
        _ => ladder_of(vec![2.0, low]),
    };
    ask(&ladder, &some_corridors(random))
}

fn no_corridor(random: &mut Random) -> Words {
    ask(&usual_ladder(random), &[])
}

fn large(random: &mut Random) -> Words {
    let count = random.from_to(40, MOST_CORRIDORS);
    ask(&usual_ladder(random), &usual_corridors(random, count))
}

fn full_ladder(random: &mut Random) -> Vec<f64> {
    let top = random.between(400.0, MOST_KV);
    (0..MOST_LEVELS).map(|l| top / (1 << l) as f64).collect()
}

fn at_bounds(random: &mut Random) -> Words {
    let mut ladder = full_ladder(random);
    ladder[0] = random.pick(&[MOST_KV, ladder[0]]);
    let count = random.pick(&[1, 5, MOST_CORRIDORS - 1, MOST_CORRIDORS]);
    ask(&ladder, &usual_corridors(random, count))
}

fn largest(random: &mut Random) -> Words {
    ask(
        &full_ladder(random),
        &usual_corridors(random, MOST_CORRIDORS),
    )
}

/// A count past its bound; the tables may be faulty too, which 2 comes before.
fn past_bounds(random: &mut Random) -> Words {
    let corridors = some_corridors(random);
    match random.below(4) {
        0 => ask(&[], &corridors),
        1 => ask(&[0.0; MOST_SHEET_LEVELS], &corridors),
        2 => ask(&[], &[]),
        _ => ask(
            &usual_ladder(random),
            &usual_corridors(random, MOST_CORRIDORS + 1),
        ),
    }
}

fn not_a_level(random: &mut Random) -> f64 {
    let past = moved(MOST_KV, 1);
    random.pick(&[0.0, -0.0, -1.0, f64::NAN, f64::INFINITY, past])
}

/// A level out of range, or not above the next by more than 1e-6.
fn level_fault(random: &mut Random) -> Words {
    let mut ladder = full_ladder(random);
    let place = random.below(MOST_LEVELS);
    ladder[place] = match random.once_in(2) {
        true => not_a_level(random),
        false => {
            let next = ladder.get(place + 1).copied().unwrap_or(0.0);
            random.near(next + 1e-6, 1)
        }
    };
    ask(&ladder, &some_corridors(random))
}

fn with_fault(random: &mut Random, fault: fn(&mut Random, &mut (f64, f64))) -> Words {
    let mut corridors = some_corridors(random);
    let place = random.below(corridors.len());
    fault(random, &mut corridors[place]);
    ask(&usual_ladder(random), &corridors)
}

fn bad_length(random: &mut Random, corridor: &mut (f64, f64)) {
    let past = moved(MOST_KM, 1);
    let below = -f64::from_bits(1);
    corridor.0 = random.pick(&[below, -1.0, past, 1e300, f64::NAN, f64::INFINITY]);
}

fn bad_spread(random: &mut Random, corridor: &mut (f64, f64)) {
    let (below, past) = (moved(LEAST_SPREAD, -1), moved(MOST_SPREAD, 1));
    corridor.1 = random.pick(&[below, past, 0.0, -1.0, f64::NAN, f64::INFINITY]);
}

fn length_fault(random: &mut Random) -> Words {
    with_fault(random, bad_length)
}

fn spread_fault(random: &mut Random) -> Words {
    with_fault(random, bad_spread)
}

/// Levels, lengths and spreads, each at fault half of the time.
fn several_faults(random: &mut Random) -> Words {
    let mut ladder = usual_ladder(random);
    let mut corridors = some_corridors(random);
    if random.once_in(2) {
        let place = random.below(ladder.len());
        ladder[place] = not_a_level(random);
    }
    for corridor in &mut corridors {
        if random.once_in(4) {
            bad_length(random, corridor);
        }
        if random.once_in(4) {
            bad_spread(random, corridor);
        }
    }
    ask(&ladder, &corridors)
}
