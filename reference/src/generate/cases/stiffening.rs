//! Families about banks and about angle spreads that are too wide.

use super::sketch::{
    bus, chain, corridor, empty, fill_sheet, ladder, network, plain_line, reserve, uniform_sheet,
    unit, Spec, EXPAND, REINFORCE,
};
use crate::electrical::params::MAX_ANGLE_SPREAD_RAD;
use crate::generate::random::Random;
use crate::harness::tables::{Case, Generator, MOST_BUSES};

/// Loads at few buses, so that flows pass through lower ends whose banks were
/// sized for less.
pub fn banks(random: &mut Random) -> Case {
    let buses = random.from_to(4, 20);
    let spec = Spec {
        mode: random.pick(&[EXPAND, EXPAND, REINFORCE]),
        buses,
        corridors: random.from_to(buses - 1, buses + 4),
        generators: random.from_to(1, 3),
        above: random.below(2),
        requested: random.from_to(2, 3),
        load: random.pick(&[300.0, 900.0]),
        km: 50.0,
        island_every: 30,
    };
    let mut case = network(random, &spec);
    for bus in &mut case.buses {
        if !random.once_in(4) {
            bus.reading = 0.0;
        }
    }
    for line in &mut case.sheet {
        line.rate = random.log_between(120.0, 3_000.0);
    }
    case
}

/// Reactance times rating of a bank of the third class, per unit of 100 MVA.
const THIRD_CLASS: f64 = 13.0;

/// A bank that draws more flow with each enlargement: it grows by one step of
/// 50 MVA in each round, until the rounds that were asked for are run.
///
/// Bus 0 feeds the load at bus 3 over bus 1. The corridor 0–1 has a bank of
/// 100 MVA; the way over bus 2 beside it is as stiff as a bank of `beside`
/// MVA. A bank of m MVA then carries load · m / (m + beside), which needs a
/// larger one as long as m + beside < load / 0.9.
fn growing_bank(random: &mut Random, mode: u8, rounds: usize) -> Case {
    let beside = random.between(80_000.0, 150_000.0);
    let last_bank = 100.0 + 50.0 * (rounds as f64 - 1.5);
    let mut case = empty(mode, vec![500.0, 230.0], 0);
    case.buses = vec![
        bus(0, 0.0),
        bus(1, 0.0),
        bus(1, 0.0),
        bus(1, 0.9 * (beside + last_bank)),
    ];
    case.generators = vec![unit(0, 1e6), reserve(2, 1e6)];
    case.generators[0].slack = 1;
    case.corridors = vec![
        corridor(0, 1),
        corridor(0, 2),
        corridor(2, 1),
        corridor(1, 3),
    ];
    // The bank at bus 2 is sized for its reserve: 1.2e6 MVA.
    let line = 0.5 * THIRD_CLASS * (1.0 / beside - 1.0 / 1.2e6);
    for x in [1e-9, line, line, 1e-6] {
        case.sheet.extend([plain_line(x, 1e6); 2]);
    }
    case
}

pub fn bank_after_bank(random: &mut Random) -> Case {
    let few = random.from_to(3, 20);
    let rounds = random.pick(&[few, 63, 64, 64, 65, 66, 90]);
    let mode = random.pick(&[EXPAND, REINFORCE]);
    growing_bank(random, mode, rounds)
}

/// Two ways from a unit to a load. The first takes a second circuit on both
/// of its corridors, which draws so much flow that its second corridor needs
/// a third and raises its ends; sometimes a bank grows beside it meanwhile.
pub fn raise_in_a_round(random: &mut Random) -> Case {
    let mut case = match random.once_in(2) {
        true => {
            let rounds = random.from_to(4, 12);
            growing_bank(random, EXPAND, rounds)
        }
        false => empty(EXPAND, vec![500.0, 230.0], 0),
    };
    let first = case.buses.len();
    let load = random.between(200.0, 3_000.0);
    case.buses.extend([bus(1, 0.0); 3]);
    case.buses.push(bus(1, load));
    case.generators.push(unit(first, 2.0 * load));
    // From, to, reactance and rating, the last two as shares.
    let (narrow, wide) = (random.between(0.38, 0.45), random.between(0.29, 0.33));
    for (a, b, x, rate) in [
        (0, 1, 0.1, narrow),
        (1, 3, 0.01, wide),
        (0, 2, 0.1, 1.0),
        (2, 3, 0.01, 1.0),
    ] {
        case.corridors.push(corridor(first + a, first + b));
        let x = x * 10.0 / load * random.between(0.98, 1.02);
        case.sheet.push(plain_line(0.2 * x, 5.0 * rate * load));
        case.sheet.push(plain_line(x, rate * load));
    }
    case
}

/// Capacity takes the rounds in which another island could be stiffened.
pub fn too_late(random: &mut Random) -> Case {
    let rounds = random.pick(&[46, 47, 48, 49, 50, 60]);
    let mut case = growing_bank(random, EXPAND, rounds);
    let first = case.buses.len();
    let length = random.from_to(10, 20);
    let load = random.between(50.0, 90.0);
    let spread = random.between(1.2, 3.0);
    let x = spread * 100.0 / load / (length - 1) as f64;
    case.buses.extend(vec![bus(0, 0.0); length]);
    case.buses[first + length - 1].reading = load;
    case.generators.push(unit(first, 2.0 * load));
    for i in first + 1..first + length {
        case.corridors.push(corridor(i - 1, i));
        case.sheet
            .extend([plain_line(x * random.between(0.9, 1.1), 1e4); 2]);
    }
    case
}

/// A chain whose spread is `times` too wide where every bus stands on the
/// lowest level, with rates that no flow reaches. A level up, the reactance
/// is `better` times.
fn wide_chain(
    random: &mut Random,
    levels: (usize, usize),
    buses: usize,
    times: f64,
    better: f64,
) -> Case {
    let (above, requested) = levels;
    let load = random.between(20.0, 80.0);
    let ladder = ladder(random, above + requested);
    let mut case = chain(EXPAND, ladder, above, buses, load);
    let widest = MAX_ANGLE_SPREAD_RAD * times;
    let x = widest * 100.0 / load / (buses - 1) as f64;
    for c in &mut case.corridors {
        c.length = random.between(5.0, 30.0);
        c.share = random.pick(&[1.0, 0.97]);
    }
    for _ in 0..case.corridors.len() {
        let own = x * random.between(0.8, 1.2);
        let below = (0..case.ladder.len()).rev();
        let x = |up| (0..up).fold(own, |x, _| x * better);
        let rows = below.map(|up| plain_line(x(up), 1e3));
        case.sheet.extend(rows);
    }
    case
}

fn usual_times(random: &mut Random) -> f64 {
    random.pick(&[1.05, 1.3, 2.0, 4.0])
}

pub fn by_circuits(random: &mut Random) -> Case {
    let buses = random.from_to(3, 70);
    let times = usual_times(random);
    let mut case = wide_chain(random, (0, 1), buses, times, 1.0);
    case.target = random.pick(&[0, buses as u32 * 2]);
    case
}

/// Tiers alternate, so that every corridor has a bank below its line's rate.
pub fn by_banks(random: &mut Random) -> Case {
    let buses = random.from_to(3, 40);
    let times = random.between(0.8, 2.0);
    let mut case = wide_chain(random, (0, 2), buses, times, 1.0);
    for (i, bus) in case.buses.iter_mut().enumerate() {
        bus.tier = (i % 2) as u8;
    }
    case
}

/// Banks are enlarged to lines that a raise then takes the rating from.
pub fn banks_then_raises(random: &mut Random) -> Case {
    let buses = random.from_to(8, 60);
    let times = random.between(1.0, 3.0);
    let mut case = wide_chain(random, (0, 3), buses, times, 0.9);
    for (i, bus) in case.buses.iter_mut().enumerate() {
        bus.tier = 1 + (i % 2) as u8;
    }
    for line in &mut case.sheet {
        line.rate = random.log_between(110.0, 2_000.0);
    }
    case
}

pub fn by_raises(random: &mut Random) -> Case {
    let buses = random.from_to(6, 100);
    let times = usual_times(random);
    let better = random.pick(&[0.3, 0.7, 1.0]);
    wide_chain(random, (0, 2), buses, times, better)
}

pub fn below_the_top(random: &mut Random) -> Case {
    let buses = random.from_to(6, 60);
    let requested = random.from_to(3, 5);
    let times = usual_times(random);
    let better = random.pick(&[0.5, 0.8, 1.0]);
    wide_chain(random, (0, requested), buses, times, better)
}

/// Enough buses stand at the top requested level, so the plan may raise onto
/// the levels above.
pub fn above_the_request(random: &mut Random) -> Case {
    let buses = random.from_to(6, 60);
    let above = random.from_to(1, 3);
    let requested = random.from_to(1, 2);
    let times = usual_times(random);
    let mut case = wide_chain(random, (above, requested), buses, times, 0.6);
    let high = random.pick(&[0, buses / 4, buses / 2, buses]);
    for i in 0..high {
        case.buses[i].tier = 0;
    }
    case
}

/// Nearly as many buses at the top as the voltage budget allows, and the
/// corridors that help most side by side: their common ends count again.
pub fn ends_met_again(random: &mut Random) -> Case {
    let buses = random.pick(&[50, 60, 80, 100, 180, 180]);
    let mut case = wide_chain(random, (0, 2), buses, 3.0, 0.5);
    let budget = (0.35 * buses as f64).floor() as usize;
    let left = random.pick(&[0, 4, 4, 5, 6, 7]);
    for bus in &mut case.buses[..budget - left] {
        bus.tier = 0;
    }
    let first = random.from_to(budget + 5, buses - 8);
    for (i, rows) in case.sheet.chunks_mut(2).skip(first).take(6).enumerate() {
        for row in rows {
            row.x *= 20.0 - 2.0 * i as f64;
        }
    }
    case
}

/// Two equal arms on a hub: two buses lag, or lead, and equal gains.
pub fn equal_arms(random: &mut Random) -> Case {
    let length = random.from_to(1, 12);
    let requested = random.from_to(1, 2);
    let mut case = empty(EXPAND, ladder(random, requested), 0);
    let names = random.shuffled(2 * length + 1);
    let hub = names[2 * length];
    let power = random.between(20.0, 80.0);
    case.buses = vec![bus(requested - 1, 0.0); 2 * length + 1];
    let times = random.between(0.6, 3.0);
    let x = MAX_ANGLE_SPREAD_RAD * times * 100.0 / power / length as f64;
    for arm in [&names[..length], &names[length..2 * length]] {
        let mut inner = hub;
        for &outer in arm {
            case.corridors.push(corridor(inner, outer));
            inner = outer;
        }
    }
    let mut at_hub = unit(hub, 1e4);
    at_hub.slack = 1;
    case.generators = vec![at_hub];
    let leading = random.once_in(2);
    for end in [names[length - 1], names[2 * length - 1]] {
        if leading {
            case.generators.push(Generator {
                pmin: power,
                ..unit(end, power)
            });
        } else {
            case.buses[end].reading = power;
        }
    }
    if leading {
        case.buses[hub].reading = 2.0 * power;
    }
    uniform_sheet(&mut case, plain_line(x, 1e3));
    case
}

/// Chains side by side, each with its own unit and load.
pub fn several_islands(random: &mut Random) -> Case {
    let requested = random.from_to(1, 3);
    let mut all = empty(EXPAND, ladder(random, requested), 0);
    for _ in 0..random.from_to(2, 5) {
        let first = all.buses.len() as u16;
        let buses = random.from_to(3, 30);
        let times = random.between(0.7, 3.0);
        let island = wide_chain(random, (0, requested), buses, times, 0.6);
        all.buses.extend(island.buses);
        all.sheet.extend(island.sheet);
        all.corridors
            .extend(island.corridors.into_iter().map(|mut c| {
                c.a += first;
                c.b += first;
                c
            }));
        all.generators
            .extend(island.generators.into_iter().map(|mut g| {
                g.bus += first;
                g
            }));
    }
    all
}

/// More circuits to begin with than the branch budget allows.
pub fn budgets_spent(random: &mut Random) -> Case {
    let buses = random.from_to(5, 60);
    let requested = random.from_to(1, 3);
    let times = random.pick(&[1.5, 3.0, 6.0]);
    let mut case = wide_chain(random, (0, requested), buses, times, 0.9);
    for c in &mut case.corridors {
        c.circuits = random.pick(&[1, 2, 2, 2]);
    }
    // So wide that the counts above do not matter.
    for line in &mut case.sheet {
        line.x *= 2.0;
    }
    case
}

pub fn large(random: &mut Random) -> Case {
    let buses = random.pick(&[180, 200, MOST_BUSES]);
    let requested = random.from_to(1, 4);
    let times = random.pick(&[1.2, 2.0]);
    let mut case = wide_chain(random, (0, requested), buses, times, 0.7);
    let load = case.buses[buses - 1].reading;
    // The same load in many places.
    for bus in &mut case.buses {
        bus.reading = 2.0 * load / buses as f64;
    }
    case.generators = vec![unit(0, 4.0 * load)];
    if random.once_in(3) {
        fill_sheet(random, &mut case);
    }
    case
}

/// A chain of one level with one row for all.
pub fn plain_chain(buses: usize, load: f64, x: f64, rate: f64) -> Case {
    let mut case = chain(EXPAND, vec![138.0], 0, buses, load);
    uniform_sheet(&mut case, plain_line(x, rate));
    case
}
