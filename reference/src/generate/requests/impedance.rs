//! Requests for a bank's impedance.

use super::{Family, Words};
use crate::generate::random::Random;

pub const FAMILIES: &[Family] = &[
    ("ordinary rating", ordinary),
    ("multiple of 50", step),
    ("around a class bound", class_bound),
    ("tiny rating", tiny),
    ("huge rating", huge),
    ("zero or below", not_above_zero),
    ("not finite", not_finite),
    ("any bits", any_bits),
];

fn ask(mva: f64) -> Words {
    Words::new("IMP").figure(mva)
}

fn ordinary(random: &mut Random) -> Words {
    ask(random.between(0.1, 3_000.0))
}

fn step(random: &mut Random) -> Words {
    ask(50.0 * random.from_to(1, 20_000) as f64)
}

fn class_bound(random: &mut Random) -> Words {
    let bound = random.pick(&[100.0, 400.0]);
    match random.once_in(4) {
        true => ask(bound + random.between(-1.0, 1.0)),
        false => ask(random.near(bound, 3)),
    }
}

/// Down to the subnormals, where the impedance is infinite.
fn tiny(random: &mut Random) -> Words {
    match random.once_in(2) {
        true => ask(f64::from_bits(random.bits() >> random.from_to(12, 63))),
        false => ask(random.log_between(1e-308, 1e-3)),
    }
}

fn huge(random: &mut Random) -> Words {
    ask(random.log_between(1e4, 1.7e308))
}

fn not_above_zero(random: &mut Random) -> Words {
    let below = -random.log_between(1e-300, 1e300);
    ask(random.pick(&[0.0, -0.0, -f64::from_bits(1), below, below]))
}

fn not_finite(random: &mut Random) -> Words {
    let nan = f64::from_bits(0x7FF << 52 | random.bits() >> 12 | 1);
    ask(random.pick(&[f64::INFINITY, f64::NEG_INFINITY, nan, -nan]))
}

fn any_bits(random: &mut Random) -> Words {
    ask(random.any_figure())
}
