//! Requests for roots.

use super::{Family, Request, Words};
use crate::generate::random::Random;

pub const FAMILIES: &[Family] = &[
    ("square or neighbour", square),
    ("between two roots", midpoint),
    ("subnormal", subnormal),
    ("power of two or neighbour", power_of_two),
    ("end of a binade", end_of_binade),
    ("negative", negative),
    ("NaN", not_a_number),
    ("zero or infinity", special),
    ("any bits", any_bits),
];

/// Exponent fields that one seed covers from end to end.
const BINADES_PER_SEED: u64 = 64;
const EXPONENTS: u64 = 2_048;
const MANTISSA: u64 = (1 << 52) - 1;

fn ask(bits: u64) -> Words {
    Words::new("SQRT").bits(bits)
}

/// Both ends of [`BINADES_PER_SEED`] binades: 32 seeds in a row cover all.
pub fn binades(seed: u64) -> impl Iterator<Item = Request> {
    let first = (seed % (EXPONENTS / BINADES_PER_SEED)) * BINADES_PER_SEED;
    (first..first + BINADES_PER_SEED)
        .flat_map(|exponent| [exponent << 52, exponent << 52 | MANTISSA])
        .map(|bits| Request {
            family: "end of a binade",
            line: ask(bits).line(),
        })
}

/// The square of a figure of at most 26 bits is exact.
fn square(random: &mut Random) -> Words {
    let bits = random.from_to(1, 26) as u32;
    let root = (random.bits() >> (64 - bits)) as f64 * 2f64.powi(random.below(900) as i32 - 450);
    let near = random.near(root * root, 2);
    ask(near.to_bits())
}

/// Close to the square of the middle between two neighbouring roots: where
/// rounding to nearest turns.
fn midpoint(random: &mut Random) -> Words {
    let root = u128::from(random.bits() >> 11 | 1 << 52);
    let twice_middle = 2 * root + 1;
    let square = (twice_middle * twice_middle) as f64;
    let scaled = square * 2f64.powi(2 * (random.below(400) as i32 - 250));
    ask(random.near(scaled, 1).to_bits())
}

fn subnormal(random: &mut Random) -> Words {
    let length = random.from_to(1, 52) as u32;
    ask(random.bits() >> (64 - length))
}

fn power_of_two(random: &mut Random) -> Words {
    let power = match random.once_in(4) {
        true => 1u64 << random.below(52),
        false => (random.from_to(1, 2046) as u64) << 52,
    };
    ask(power.wrapping_add_signed(random.below(5) as i64 - 2))
}

fn end_of_binade(random: &mut Random) -> Words {
    let exponent = random.below(EXPONENTS as usize) as u64;
    ask(exponent << 52 | random.pick(&[0, 1, MANTISSA - 1, MANTISSA]))
}

fn negative(random: &mut Random) -> Words {
    ask(random.bits() | 1 << 63)
}

fn not_a_number(random: &mut Random) -> Words {
    let any = random.bits();
    let payload = random.pick(&[1, 1 << 51, MANTISSA, any & MANTISSA | 1]);
    ask(0x7FF << 52 | payload | any & 1 << 63)
}

fn special(random: &mut Random) -> Words {
    ask(random.pick(&[0, 1 << 63, 0x7FF << 52, 0xFFF << 52]))
}

fn any_bits(random: &mut Random) -> Words {
    ask(random.bits())
}
