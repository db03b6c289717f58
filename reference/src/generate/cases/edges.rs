//! Families at the edge of a comparison: a load is chosen so that a figure of
//! the plan lies within a few last places of its limit, where the order of
//! the arithmetic decides.

use super::networks::two_buses;
use super::sketch::{
    bus, corridor, empty, plain_line, uniform_sheet, unit, EXPAND, OBSERVE, REINFORCE,
};
use super::stiffening::plain_chain;
use crate::electrical::params::MAX_ANGLE_SPREAD_RAD;
use crate::generate::random::Random;
use crate::harness::plan::plan_case;
use crate::harness::tables::Case;
use crate::watch::{apart, Branch};

/// Cases tried before a search is given up; the last one is kept then.
const TRIES: usize = 200;

/// The first case that takes `branch`.
fn search(random: &mut Random, branch: Branch, one: fn(&mut Random) -> Case) -> Case {
    let mut case = one(random);
    for _ in 1..TRIES {
        let (_, taken) = apart(|| plan_case(&case).is_ok());
        if taken[branch as usize] > 0 {
            break;
        }
        case = one(random);
    }
    case
}

/// A case that takes `branch`, the edge itself, or one beside it.
fn search_or_any(random: &mut Random, branch: Branch, one: fn(&mut Random) -> Case) -> Case {
    match random.once_in(2) {
        true => search(random, branch, one),
        false => one(random),
    }
}

/// A rate and a share as they come.
fn rate_and_share(random: &mut Random) -> (f64, f64) {
    let share = random.between(0.5, 1.0);
    (
        random.between(50.0, 500.0),
        random.pick(&[share, share, 1.0]),
    )
}

/// Two buses whose corridor has some circuits and a share.
fn loaded(random: &mut Random, mode: u8, load: f64, rate: f64, share: f64, circuits: u8) -> Case {
    let x = random.log_between(1e-4, 1e-2);
    let mut case = two_buses(mode, 138.0, load, plain_line(x, rate));
    case.corridors[0].share = share;
    case.corridors[0].circuits = circuits;
    case
}

/// At the utilisation target of the circuits there are.
pub fn circuit(random: &mut Random) -> Case {
    search_or_any(random, Branch::NeedExactlyMet, |random| {
        let (rate, share) = rate_and_share(random);
        let circuits = random.from_to(1, 5) as u8;
        let load = random.near(0.9 * (f64::from(circuits) * (rate * share)), 3);
        let mode = random.pick(&[EXPAND, REINFORCE]);
        loaded(random, mode, load, rate, share, circuits)
    })
}

/// At the flow that two lines carry, where the ends are raised.
pub fn raise(random: &mut Random) -> Case {
    search_or_any(random, Branch::FlowOfTwoLines, |random| {
        let (rate, share) = rate_and_share(random);
        let load = random.near(2.0 * (0.9 * rate * share), 3);
        let mut case = loaded(random, EXPAND, load, rate, share, 1);
        let above = random.below(2);
        case.ladder = vec![345.0, 138.0];
        case.above = above;
        if above == 0 {
            case.buses[0].tier = 1;
            case.buses[1].tier = 1;
        }
        let line = case.sheet[0];
        uniform_sheet(&mut case, line);
        case
    })
}

/// A flow that passes through a lower end with a bank of 100 MVA.
fn passing(random: &mut Random, load: f64, share: f64, circuits: u8) -> Case {
    let mut case = empty(REINFORCE, vec![345.0, 138.0], 0);
    case.mode = random.pick(&[EXPAND, REINFORCE]);
    case.buses = vec![bus(0, 0.0), bus(1, 0.0), bus(1, load)];
    case.corridors = vec![corridor(0, 1), corridor(1, 2)];
    case.corridors[0].share = share;
    case.corridors[0].circuits = circuits;
    case.generators = vec![unit(0, 1e6)];
    let x = random.log_between(1e-4, 1e-2);
    uniform_sheet(&mut case, plain_line(x, 2e4));
    case
}

/// The need is a last place above the bank and the next bank is the same one.
pub fn bank(random: &mut Random) -> Case {
    search(random, Branch::BankNotLarger, |random| {
        let share = random.between(0.5, 0.64);
        let circuits = random.pick(&[1, 1, 3]);
        let load = random.near(0.9 * (f64::from(circuits) * (100.0 * share)), 3);
        passing(random, load, share, circuits)
    })
}

/// A need at a whole number of steps, where dividing by circuits and share at
/// once gives another step than dividing by one after the other.
pub fn bank_step(random: &mut Random) -> Case {
    search(random, Branch::BankByOneDivision, |random| {
        let share = random.between(0.5, 1.0);
        let circuits = random.pick(&[3, 5, 6, 7]);
        let steps = random.from_to(3, 40) as f64;
        let load = random.near(0.9 * (f64::from(circuits) * share * (50.0 * steps)), 3);
        passing(random, load, share, circuits)
    })
}

/// A need at a whole number of circuits and 1e-9, where dividing by 0.9 and
/// the rate at once counts otherwise.
pub fn cap(random: &mut Random) -> Case {
    search(random, Branch::CapByOneDivision, |random| {
        let (rate, share) = rate_and_share(random);
        let circuits = random.pick(&[4, 5, 7]);
        let load = random.near(0.9 * (rate * share) * (f64::from(circuits) + 1e-9), 6);
        let mode = random.pick(&[EXPAND, REINFORCE]);
        loaded(random, mode, load, rate, share, circuits)
    })
}

/// At the rating of the circuits, where a corridor counts as overloaded.
pub fn rating(random: &mut Random) -> Case {
    search_or_any(random, Branch::LoadingAtTheLimit, |random| {
        let (rate, share) = rate_and_share(random);
        let circuits = random.from_to(1, 6) as u8;
        let load = random.near((1.0 + 1e-9) * (f64::from(circuits) * (rate * share)), 4);
        loaded(random, OBSERVE, load, rate, share, circuits)
    })
}

/// A need at its limit, where a corridor counts as capped.
pub fn need(random: &mut Random) -> Case {
    search_or_any(random, Branch::NeedAtTheLimit, |random| {
        let (rate, share) = rate_and_share(random);
        let circuits = random.pick(&[4, 6]);
        let load = random.near(0.9 * (rate * share) * (f64::from(circuits) + 1e-9), 4);
        let mut case = loaded(random, REINFORCE, load, rate, share, circuits);
        if circuits == 6 {
            case.ladder[0] = 69.0;
        }
        case
    })
}

/// At the widest spread that is left alone.
pub fn spread(random: &mut Random) -> Case {
    search_or_any(random, Branch::SpreadExactlyAllowed, |random| {
        let buses = random.from_to(2, 5);
        let load = random.between(20.0, 90.0);
        let x = MAX_ANGLE_SPREAD_RAD * 100.0 / load / (buses - 1) as f64;
        plain_chain(buses, random.near(load, 3), random.near(x, 3), 1e4)
    })
}
