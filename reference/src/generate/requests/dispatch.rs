//! Requests for dispatch.

use super::{Family, Words};
use crate::generate::random::Random;
use crate::harness::answers::MOST_COUNT;
use crate::harness::checks::Unit;
use crate::harness::tables::MOST_GENERATORS;

pub const FAMILIES: &[Family] = &[
    ("ordinary", ordinary),
    ("ordinary", ordinary),
    ("one unit", one_unit),
    ("no unit", no_unit),
    ("many units", many),
    LARGEST,
    ("demand around a sum", around_a_sum),
    ("sums equal", sums_equal),
    ("no quadratic cost", no_quadratic_cost),
    ("some with no quadratic cost", some_no_quadratic_cost),
    ("whole numbers", whole_numbers),
    ("costs far apart", far_apart),
    ("prices whose sum overflows", overflowing_middle),
    ("costs that overflow", overflowing_costs),
    ("figures at their bounds", at_bounds),
    ("a fault in a unit", faulty_unit),
    ("a NaN in a unit", nan_unit),
    ("a faulty demand", faulty_demand),
    ("count past its bound", past_bounds),
    ("any bits", any_bits),
];

pub const LARGEST: Family = ("128 units", most_units);

pub fn ask(units: &[Unit], demand: f64) -> Words {
    Words::new("DISP")
        .whole(units.len())
        .figure(demand)
        .each(units, |words, &(pmin, pmax, c1, c2)| {
            words.figure(pmin).figure(pmax).figure(c1).figure(c2)
        })
}

pub fn ordinary_unit(random: &mut Random) -> Unit {
    let pmax = random.between(5.0, 500.0);
    let pmin = match random.once_in(2) {
        true => 0.0,
        false => pmax * random.unit(),
    };
    (
        pmin,
        pmax,
        random.between(0.5, 50.0),
        random.log_between(1e-4, 0.1),
    )
}

fn units(random: &mut Random, count: usize) -> Vec<Unit> {
    (0..count).map(|_| ordinary_unit(random)).collect()
}

fn sum(units: &[Unit], limit: fn(&Unit) -> f64) -> f64 {
    units.iter().map(limit).sum()
}

/// Mostly between the sums, sometimes past one of them.
fn some_demand(random: &mut Random, units: &[Unit]) -> f64 {
    let (least, most) = (sum(units, |u| u.0), sum(units, |u| u.1));
    let share = random.between(-0.1, 1.1);
    (least + (most - least) * share).clamp(0.0, 1e9)
}

fn with_some_demand(random: &mut Random, units: Vec<Unit>) -> Words {
    let demand = some_demand(random, &units);
    ask(&units, demand)
}

fn ordinary(random: &mut Random) -> Words {
    let count = random.from_to(1, 9);
    let units = units(random, count);
    with_some_demand(random, units)
}

fn one_unit(random: &mut Random) -> Words {
    let mut unit = ordinary_unit(random);
    if random.once_in(3) {
        unit.3 = 0.0;
    }
    with_some_demand(random, vec![unit])
}

fn no_unit(random: &mut Random) -> Words {
    let demand = random.pick(&[0.0, -0.0, 1.0, 1e9, -1.0]);
    ask(&[], demand)
}

fn many(random: &mut Random) -> Words {
    let count = random.from_to(10, 60);
    let units = units(random, count);
    with_some_demand(random, units)
}

fn most_units(random: &mut Random) -> Words {
    let units = units(random, MOST_GENERATORS);
    with_some_demand(random, units)
}

fn around_a_sum(random: &mut Random) -> Words {
    let count = random.from_to(1, 6);
    let units = units(random, count);
    let limit: fn(&Unit) -> f64 = random.pick(&[|u: &Unit| u.0, |u: &Unit| u.1]);
    let demand = random.near(sum(&units, limit), 2).max(0.0);
    ask(&units, demand)
}

/// Every unit stands still, or moves too little to be seen beside one that
/// does: the sums are equal after rounding.
fn sums_equal(random: &mut Random) -> Words {
    let count = random.from_to(1, 5);
    let mut units = units(random, count);
    for unit in &mut units {
        unit.0 = unit.1;
    }
    if random.once_in(2) {
        units[0].0 = 1e6;
        units[0].1 = 1e6;
        for unit in &mut units[1..] {
            unit.0 = 0.0;
            unit.1 = random.log_between(1e-20, 1e-11);
        }
    }
    let demand = random.near(sum(&units, |u| u.0), 1);
    ask(&units, demand)
}

fn no_quadratic_cost(random: &mut Random) -> Words {
    let count = random.from_to(1, 8);
    let mut units = units(random, count);
    for unit in &mut units {
        unit.3 = random.pick(&[0.0, -0.0, 1e-13, 1e-12]);
    }
    with_some_demand(random, units)
}

fn some_no_quadratic_cost(random: &mut Random) -> Words {
    let count = random.from_to(2, 10);
    let mut units = units(random, count);
    for unit in &mut units {
        if random.once_in(2) {
            unit.3 = 0.0;
        }
    }
    with_some_demand(random, units)
}

/// Small whole numbers: equal prices, exact sums and ties.
fn whole_numbers(random: &mut Random) -> Words {
    let count = random.from_to(1, 6);
    let units: Vec<Unit> = (0..count)
        .map(|_| {
            let pmin = random.below(4) as f64;
            let pmax = pmin + random.below(4) as f64;
            (pmin, pmax, random.below(4) as f64, random.below(3) as f64)
        })
        .collect();
    let most = sum(&units, |u| u.1) as usize;
    let demand = random.below(most + 2) as f64;
    ask(&units, demand)
}

/// One price is so high that 200 halvings do not reach the others.
fn far_apart(random: &mut Random) -> Words {
    let count = random.from_to(1, 5);
    let mut units = units(random, count);
    let dear = random.below(count);
    units[dear].3 = random.log_between(1e60, 1e300);
    with_some_demand(random, units)
}

/// Each price is finite and the sum of the lowest and the highest is not.
fn overflowing_middle(random: &mut Random) -> Words {
    let count = random.from_to(1, 4);
    let units: Vec<Unit> = (0..count)
        .map(|_| {
            let pmin = random.between(1.0, 1.1);
            let pmax = random.between(1.2, 1.5);
            (
                pmin,
                pmax,
                random.between(0.0, 10.0),
                random.between(4.6e307, 5.5e307),
            )
        })
        .collect();
    let (least, most) = (sum(&units, |u| u.0), sum(&units, |u| u.1));
    let demand = random.between(least, most);
    ask(&units, demand)
}

/// Refused with 8 strictly between the sums, answered outside them.
fn overflowing_costs(random: &mut Random) -> Words {
    let count = random.from_to(1, 6);
    let mut units = units(random, count);
    for _ in 0..random.from_to(1, 2) {
        let place = random.below(count);
        units[place].3 = random.log_between(1e305, f64::MAX);
    }
    match random.once_in(4) {
        true => {
            let limit: fn(&Unit) -> f64 = random.pick(&[|u: &Unit| u.0, |u: &Unit| u.1]);
            let demand = random.near(sum(&units, limit), 1).max(0.0);
            ask(&units, demand)
        }
        false => with_some_demand(random, units),
    }
}

fn at_bounds(random: &mut Random) -> Words {
    let count = random.from_to(1, 4);
    let units: Vec<Unit> = (0..count)
        .map(|_| {
            let pmax = random.pick(&[0.0, 5e-324, 1.0, 1e6]);
            let pmin = random.pick(&[0.0, -0.0, pmax]);
            (
                pmin,
                pmax,
                random.pick(&[0.0, 1e6]),
                random.pick(&[0.0, 5e-324, 1e-12, 1.0, 1e200]),
            )
        })
        .collect();
    let demand = random.pick(&[0.0, 5e-324, 0.5, 5e5, 1.5e6, 1e9]);
    ask(&units, demand)
}

/// Some units, a place among them, and what stands there.
fn with_fault(random: &mut Random, fault: fn(&mut Random, &mut Unit)) -> Words {
    let count = random.from_to(1, 7);
    let mut units = units(random, count);
    for _ in 0..random.from_to(1, 2) {
        let place = random.below(count);
        fault(random, &mut units[place]);
    }
    with_some_demand(random, units)
}

fn faulty_unit(random: &mut Random) -> Words {
    with_fault(random, |random, unit| match random.below(8) {
        0 => unit.0 = -5e-324,
        1 => unit.0 = unit.1 + 1.0,
        2 => unit.1 = 1e6f64.next_up(),
        3 => unit.1 = unit.0.next_down(),
        4 => unit.2 = random.pick(&[-5e-324, -1.0, f64::NEG_INFINITY]),
        5 => unit.2 = random.pick(&[1e6f64.next_up(), f64::INFINITY]),
        6 => unit.3 = random.pick(&[-5e-324, -1.0]),
        _ => unit.3 = random.pick(&[f64::INFINITY, f64::NEG_INFINITY]),
    })
}

fn nan_unit(random: &mut Random) -> Words {
    with_fault(random, |random, unit| {
        let nan = f64::from_bits(0x7FF << 52 | random.bits() >> 12 | 1);
        match random.below(4) {
            0 => unit.0 = nan,
            1 => unit.1 = nan,
            2 => unit.2 = -nan,
            _ => unit.3 = nan,
        }
    })
}

fn faulty_demand(random: &mut Random) -> Words {
    let count = random.below(4);
    let mut units = units(random, count);
    if count > 0 && random.once_in(4) {
        units[count - 1].1 = -1.0;
    }
    let faults = [
        -5e-324,
        -1.0,
        1e9f64.next_up(),
        f64::INFINITY,
        f64::NEG_INFINITY,
        f64::NAN,
    ];
    let demand = random.pick(&faults);
    ask(&units, demand)
}

/// 129 to 400 units; that many only fit where each is written once.
fn past_bounds(random: &mut Random) -> Words {
    let count = random.pick(&[MOST_GENERATORS + 1, MOST_GENERATORS + 1, 200, MOST_COUNT]);
    let demand = random.pick(&[1.0, f64::NAN]);
    ask(&vec![ordinary_unit(random); count], demand)
}

fn any_bits(random: &mut Random) -> Words {
    let count = random.from_to(1, 3);
    let units: Vec<Unit> = (0..count)
        .map(|_| {
            (
                random.any_figure(),
                random.any_figure(),
                random.any_figure(),
                random.any_figure(),
            )
        })
        .collect();
    let demand = random.any_figure();
    ask(&units, demand)
}
