//! Families of whole networks: ordinary ones, heavy ones, and ones at the
//! bounds of their tables and figures.

use super::sketch::{
    bus, corridor, empty, fill_sheet, ladder, network, plain_line, uniform_sheet, unit, Spec,
    EXPAND, OBSERVE, REINFORCE,
};
use crate::generate::random::Random;
use crate::harness::tables::{
    Case, Line, MOST_BUSES, MOST_CORRIDORS, MOST_GENERATORS, MOST_LEVELS, MOST_TARGET,
};

fn small_spec(random: &mut Random, mode: u8) -> Spec {
    let buses = random.from_to(2, 12);
    let requested = random.from_to(1, 3);
    Spec {
        mode,
        buses,
        corridors: random.from_to(buses - 1, 2 * buses),
        generators: random.from_to(1, 4),
        above: random.below(3),
        requested,
        load: random.pick(&[20.0, 80.0, 200.0]),
        km: random.pick(&[40.0, 150.0]),
        island_every: random.pick(&[8, 40]),
    }
}

fn middling_spec(random: &mut Random, mode: u8) -> Spec {
    let buses = random.from_to(13, 60);
    Spec {
        buses,
        corridors: random.from_to(buses, buses + buses / 2),
        generators: random.from_to(2, 12),
        ..small_spec(random, mode)
    }
}

fn large_spec(random: &mut Random, mode: u8) -> Spec {
    let buses = random.from_to(100, 220);
    Spec {
        buses,
        corridors: random.from_to(buses, MOST_CORRIDORS),
        generators: random.from_to(10, 60),
        load: random.pick(&[10.0, 30.0, 80.0]),
        ..small_spec(random, mode)
    }
}

fn made(random: &mut Random, spec: fn(&mut Random, u8) -> Spec, mode: u8) -> Case {
    let spec = spec(random, mode);
    network(random, &spec)
}

pub fn small_expand(random: &mut Random) -> Case {
    made(random, small_spec, EXPAND)
}

pub fn small_reinforce(random: &mut Random) -> Case {
    made(random, small_spec, REINFORCE)
}

pub fn small_observe(random: &mut Random) -> Case {
    made(random, small_spec, OBSERVE)
}

pub fn middling_expand(random: &mut Random) -> Case {
    made(random, middling_spec, EXPAND)
}

pub fn middling_reinforce(random: &mut Random) -> Case {
    made(random, middling_spec, REINFORCE)
}

pub fn middling_observe(random: &mut Random) -> Case {
    made(random, middling_spec, OBSERVE)
}

pub fn large(random: &mut Random) -> Case {
    let mode = random.pick(&[EXPAND, EXPAND, REINFORCE, OBSERVE]);
    made(random, large_spec, mode)
}

pub fn at_bounds(random: &mut Random) -> Case {
    let above = random.below(MOST_LEVELS);
    let mode = random.pick(&[EXPAND, REINFORCE, OBSERVE]);
    let spec = Spec {
        buses: MOST_BUSES,
        corridors: MOST_CORRIDORS,
        generators: MOST_GENERATORS,
        above,
        requested: MOST_LEVELS - above,
        load: 20.0,
        ..small_spec(random, mode)
    };
    let mut case = network(random, &spec);
    case.target = random.pick(&[0, 300, MOST_TARGET as u32]);
    case
}

/// Loads several times what the lines carry: raises, caps and overloads.
fn heavy_spec(random: &mut Random, mode: u8) -> Spec {
    let buses = random.from_to(3, 25);
    Spec {
        buses,
        corridors: random.from_to(buses - 1, 2 * buses),
        load: random.pick(&[400.0, 1_500.0, 5_000.0]),
        km: 60.0,
        above: random.below(4),
        requested: random.from_to(1, 2),
        ..small_spec(random, mode)
    }
}

pub fn heavy_expand(random: &mut Random) -> Case {
    made(random, heavy_spec, EXPAND)
}

pub fn heavy_reinforce(random: &mut Random) -> Case {
    made(random, heavy_spec, REINFORCE)
}

/// Below 100 kV, where a hierarchical plan may build six circuits.
pub fn heavy_subtransmission(random: &mut Random) -> Case {
    let spec = Spec {
        above: 0,
        requested: 2,
        load: random.pick(&[40.0, 120.0, 300.0]),
        ..heavy_spec(random, REINFORCE)
    };
    let mut case = network(random, &spec);
    case.ladder = vec![random.pick(&[99.9, 100.0, 115.0]), 66.0];
    fill_sheet(random, &mut case);
    case
}

/// No level is left to raise to: four circuits and no more.
pub fn heavy_one_level(random: &mut Random) -> Case {
    let spec = Spec {
        above: 0,
        requested: 1,
        ..heavy_spec(random, EXPAND)
    };
    network(random, &spec)
}

/// A higher level may carry less than a lower one, so that a bank's floor is
/// cut to the new line and a raise makes matters worse.
pub fn rates_in_no_order(random: &mut Random) -> Case {
    let spec = Spec {
        above: random.below(3),
        requested: random.from_to(2, 3).min(MOST_LEVELS - 2),
        load: 200.0,
        ..heavy_spec(random, EXPAND)
    };
    let mut case = network(random, &spec);
    for line in &mut case.sheet {
        line.rate = random.log_between(50.0, 2_000.0);
        line.x = random.log_between(1e-3, 0.3);
        line.r = line.x * random.pick(&[0.0, 0.1, 1.0]);
    }
    case
}

pub fn islands(random: &mut Random) -> Case {
    let mode = random.pick(&[EXPAND, REINFORCE, OBSERVE]);
    let buses = random.from_to(6, 40);
    let spec = Spec {
        buses,
        corridors: random.from_to(1, buses / 2),
        island_every: 3,
        generators: random.from_to(1, 10),
        ..small_spec(random, mode)
    };
    network(random, &spec)
}

pub fn no_corridor(random: &mut Random) -> Case {
    let mode = random.pick(&[EXPAND, REINFORCE, OBSERVE]);
    let spec = Spec {
        corridors: 0,
        ..small_spec(random, mode)
    };
    network(random, &spec)
}

pub fn no_bus(random: &mut Random) -> Case {
    let mode = random.pick(&[EXPAND, REINFORCE, OBSERVE]);
    let above = random.below(3);
    let ladder = ladder(random, above + 1);
    Case {
        target: random.pick(&[0, 7]),
        ..empty(mode, ladder, above)
    }
}

pub fn no_generator(random: &mut Random) -> Case {
    let mode = random.pick(&[EXPAND, REINFORCE, OBSERVE]);
    let spec = Spec {
        generators: 0,
        ..small_spec(random, mode)
    };
    network(random, &spec)
}

/// Small whole numbers make equal flows, equal gains and exact ties.
pub fn whole_numbers(random: &mut Random) -> Case {
    let mode = random.pick(&[EXPAND, EXPAND, REINFORCE, OBSERVE]);
    let mut case = made(random, small_spec, mode);
    for bus in &mut case.buses {
        bus.reading = 10.0 * random.below(5) as f64;
    }
    for g in &mut case.generators {
        g.pmin = 0.0;
        g.pmax = 10.0 * random.below(20) as f64;
        g.c1 = random.below(3) as f64;
        g.c2 = random.pick(&[0.0, 0.25, 1.0]);
    }
    for c in &mut case.corridors {
        c.length = random.pick(&[0.0, 10.0, 20.0]);
        c.share = random.pick(&[0.5, 1.0]);
    }
    for line in &mut case.sheet {
        *line = plain_line(
            random.pick(&[0.25, 0.5, 1.0]),
            random.pick(&[25.0, 50.0, 100.0]),
        );
    }
    case
}

/// Several corridors between the same two buses, either way round.
pub fn parallel_corridors(random: &mut Random) -> Case {
    let mode = random.pick(&[EXPAND, EXPAND, REINFORCE, OBSERVE]);
    let mut case = made(random, heavy_spec, mode);
    for _ in 0..random.from_to(1, 6) {
        let c = case.corridors[random.below(case.corridors.len())];
        let (a, b) = random.pick(&[(c.a, c.b), (c.b, c.a)]);
        let length = random.between(1.0, 50.0);
        case.corridors
            .push(crate::harness::tables::CorridorRecord { a, b, length, ..c });
    }
    fill_sheet(random, &mut case);
    case
}

/// Every figure at one of its bounds, or just inside.
pub fn figures_at_bounds(random: &mut Random) -> Case {
    let mode = random.pick(&[EXPAND, REINFORCE, OBSERVE]);
    let mut case = made(random, small_spec, mode);
    let top = random.pick(&[10_000.0, 1e-5, 1.0, 138.0]);
    let levels = case.ladder.len();
    // The least step that the ladder's rule allows at this height.
    case.ladder = vec![top; levels];
    for i in 1..levels {
        let mut kv = case.ladder[i - 1] - 1e-6;
        while case.ladder[i - 1] <= kv + 1e-6 {
            kv = kv.next_down();
        }
        case.ladder[i] = kv;
    }
    if case.ladder[levels - 1] <= 0.0 {
        case.ladder = (0..levels).map(|i| (levels - i) as f64 * 2_000.0).collect();
    }
    for bus in &mut case.buses {
        bus.reading = random.pick(&[0.0, -0.0, 5e-324, 1.0, 1e6]);
    }
    for g in &mut case.generators {
        g.pmax = random.pick(&[0.0, 1.0, 1e6]);
        g.pmin = random.pick(&[0.0, -0.0, g.pmax]);
        g.c1 = random.pick(&[0.0, 1e6]);
        g.c2 = random.pick(&[0.0, 5e-324, 1.0, 1e290]);
    }
    for c in &mut case.corridors {
        c.circuits = random.pick(&[0, 1, 4, 5, 6, 9, 64]);
        c.length = random.pick(&[0.0, -0.0, 10_000.0]);
        c.share = random.pick(&[0.5, 1.0]);
    }
    for line in &mut case.sheet {
        line.rate = random.pick(&[0.001, 1.0, 1e6]);
        line.r = random.pick(&[0.0, -0.0, line.r]);
        line.b = random.pick(&[0.0, 1e308]);
        line.basis = random.pick(&[0, 1]);
    }
    case.target = random.pick(&[0, 1, MOST_TARGET as u32]);
    case
}

/// The norm of the injections underflows, or nearly.
pub fn tiny_loads(random: &mut Random) -> Case {
    let mode = random.pick(&[EXPAND, REINFORCE, OBSERVE]);
    let mut case = made(random, small_spec, mode);
    let scale = random.pick(&[1e-170, 1e-162, 1e-158, 1e-100]);
    for bus in &mut case.buses {
        bus.reading *= scale;
    }
    for g in &mut case.generators {
        g.pmin *= scale;
        g.pmax *= scale;
    }
    case
}

pub fn filling(random: &mut Random) -> Case {
    let mut case = made(random, small_spec, EXPAND);
    let corridors = case.corridors.len();
    case.target = random.from_to(corridors, 3 * corridors) as u32;
    for c in &mut case.corridors {
        c.circuits = random.pick(&[1, 1, 2, 4, 7]);
    }
    case
}

pub fn filling_to_caps(random: &mut Random) -> Case {
    let mut case = made(random, small_spec, EXPAND);
    let corridors = case.corridors.len();
    case.target = random.pick(&[4 * corridors, 5 * corridors + 3, MOST_TARGET]) as u32;
    case
}

/// No flow anywhere: the order goes by kV, then length, then index.
pub fn filling_ties(random: &mut Random) -> Case {
    let mut case = made(random, small_spec, EXPAND);
    for bus in &mut case.buses {
        bus.reading = 0.0;
    }
    for g in &mut case.generators {
        g.pmin = 0.0;
    }
    for c in &mut case.corridors {
        c.circuits = random.pick(&[1, 1, 2, 3, 4]);
        c.length = random.pick(&[10.0, 20.0]);
    }
    let circuits: usize = case.corridors.iter().map(|c| usize::from(c.circuits)).sum();
    case.target = (circuits + random.from_to(1, case.corridors.len())) as u32;
    case
}

/// Reactances where the susceptance overflows, underflows or nearly does.
const EXTREME_X: [f64; 9] = [
    5e-324, 1e-200, 1e-162, 1e-154, 1e-100, 1e100, 1e154, 1e160, 1e308,
];

fn extreme_line(random: &mut Random) -> Line {
    let x = random.pick(&EXTREME_X);
    Line {
        r: random.pick(&[0.0, x, 1.0]),
        x,
        b: 0.0,
        rate: random.pick(&[0.001, 100.0, 1e6]),
        basis: random.pick(&[0, 1]),
    }
}

pub fn extreme_sheet(random: &mut Random) -> Case {
    let mode = random.pick(&[EXPAND, REINFORCE, OBSERVE]);
    let mut case = made(random, small_spec, mode);
    let all = random.once_in(2);
    let rows = case.sheet.len();
    for i in 0..rows {
        if all || random.once_in(rows) {
            case.sheet[i] = extreme_line(random);
        }
    }
    let heavy = random.pick(&[1.0, 1.0, 1e4]);
    for bus in &mut case.buses {
        bus.reading = (bus.reading * heavy).min(1e6);
    }
    for g in &mut case.generators {
        g.pmax = (g.pmax * heavy).min(1e6);
    }
    case
}

/// Ordinary rows below, extreme ones above: only a raise meets them.
pub fn extreme_sheet_above(random: &mut Random) -> Case {
    let mut case = made(random, heavy_spec, EXPAND);
    if case.ladder.len() == 1 {
        case.ladder = vec![230.0, 69.0];
        case.above = 1;
        fill_sheet(random, &mut case);
    }
    let levels = case.ladder.len();
    for (i, line) in case.sheet.iter_mut().enumerate() {
        if i % levels == 0 {
            *line = extreme_line(random);
        }
    }
    case
}

/// A flow over the least rating needs more circuits than any u32.
pub fn huge_needs(random: &mut Random) -> Case {
    let mode = random.pick(&[EXPAND, REINFORCE]);
    let ladder = ladder(random, 1);
    let mut case = empty(mode, ladder, 0);
    let loads = random.from_to(3, 20);
    case.buses = vec![bus(0, 0.0); 2];
    case.corridors = vec![corridor(0, 1)];
    case.corridors[0].share = random.pick(&[0.5, 1.0]);
    for i in 2..2 + loads {
        case.buses.push(bus(0, random.between(5e5, 1e6)));
        case.corridors.push(corridor(1, i));
        case.generators.push(unit(0, 1e6));
    }
    uniform_sheet(&mut case, plain_line(1e-7, 1e6));
    case.sheet[0].rate = random.pick(&[0.001, 0.002, 1.0]);
    case
}

/// Resistances so large that the angles of a unit injection overflow; those of
/// the load itself, which is tiny, do not.
pub fn overflowing_unit_solve(random: &mut Random) -> Case {
    let mode = random.pick(&[EXPAND, EXPAND, REINFORCE]);
    let mut line = plain_line(random.log_between(1e-9, 1e-3), 100.0);
    line.r = 1e154;
    let load = random.log_between(1e-150, 1e-145);
    two_buses(mode, 138.0, load, line)
}

/// Costs for which 2 · c2 · p is not finite, or just is; one island in two has
/// its demand outside the sums, where 8 does not apply.
pub fn extreme_costs(random: &mut Random) -> Case {
    let mode = random.pick(&[EXPAND, REINFORCE, OBSERVE]);
    let mut case = made(random, small_spec, mode);
    let buses = case.buses.len();
    for _ in 0..random.from_to(1, 5) {
        let pmax = random.between(10.0, 3_000.0);
        let mut g = unit(random.below(buses), pmax);
        g.c2 = random.pick(&[1e300, 8e307, 9e307, f64::MAX, 1e304, 1e250]);
        g.pmin = random.pick(&[0.0, pmax, 0.5 * pmax]);
        case.generators.push(g);
    }
    case
}

/// Two buses, a unit at the first and a load at the second.
pub fn two_buses(mode: u8, kv: f64, load: f64, line: Line) -> Case {
    let mut case = empty(mode, vec![kv], 0);
    case.buses = vec![bus(0, 0.0), bus(0, load)];
    case.corridors = vec![corridor(0, 1)];
    case.generators = vec![unit(0, 1e6)];
    case.generators[0].slack = 1;
    uniform_sheet(&mut case, line);
    case
}
