//! What the families are put together from: ladders, lines, buses, units and
//! networks that look like real ones.

use crate::generate::random::Random;
use crate::harness::tables::{Bus, Case, CorridorRecord, Generator, Line};

pub const EXPAND: u8 = 0;
pub const REINFORCE: u8 = 1;
pub const OBSERVE: u8 = 2;

/// Nominal voltages, kV.
const NOMINAL_KV: [f64; 10] = [
    1000.0, 765.0, 500.0, 345.0, 230.0, 138.0, 115.0, 69.0, 34.5, 13.8,
];

/// Some nominal voltages, highest first.
pub fn ladder(random: &mut Random, levels: usize) -> Vec<f64> {
    let mut places = random.shuffled(NOMINAL_KV.len());
    places.truncate(levels);
    places.sort_unstable();
    places.into_iter().map(|i| NOMINAL_KV[i]).collect()
}

/// A line as the class tables would have it, roughly: reactance by length,
/// rating by conductor or by length.
pub fn line(random: &mut Random, kv: f64, km: f64) -> Line {
    let z_base = kv * kv / 100.0;
    let x = (0.4 * km * random.between(0.9, 1.1) / z_base).max(1e-7);
    let thermal = z_base * random.between(0.9, 1.1);
    let loadability = z_base * 60.0 / km.max(1.0);
    Line {
        r: x / random.between(3.0, 15.0),
        x,
        b: 3.5e-6 * km * z_base,
        rate: thermal.min(loadability).clamp(0.001, 1e6),
        basis: u8::from(loadability < thermal),
    }
}

/// Gives every corridor of `case` its rows.
pub fn fill_sheet(random: &mut Random, case: &mut Case) {
    case.sheet.clear();
    for c in &case.corridors {
        for &kv in &case.ladder {
            case.sheet.push(line(random, kv, c.length));
        }
    }
}

/// Gives every corridor the same row at every level.
pub fn uniform_sheet(case: &mut Case, line: Line) {
    case.sheet = vec![line; case.corridors.len() * case.ladder.len()];
}

/// A line with no resistance or charging.
pub fn plain_line(x: f64, rate: f64) -> Line {
    Line {
        r: 0.0,
        x,
        b: 0.0,
        rate,
        basis: 0,
    }
}

pub fn corridor(a: usize, b: usize) -> CorridorRecord {
    CorridorRecord {
        a: a as u16,
        b: b as u16,
        circuits: 1,
        length: 10.0,
        share: 1.0,
        ..CorridorRecord::default()
    }
}

pub fn bus(tier: usize, load: f64) -> Bus {
    Bus::plain(tier as u8, load)
}

/// A unit that can serve up to `pmax`, with ordinary costs.
pub fn unit(bus: usize, pmax: f64) -> Generator {
    Generator {
        bus: bus as u16,
        slack: 0,
        pmin: 0.0,
        pmax,
        c1: 20.0,
        c2: 0.01,
    }
}

/// A unit that serves nothing as long as cheaper ones can: its capacity makes
/// the banks at its bus large.
pub fn reserve(bus: usize, pmax: f64) -> Generator {
    Generator {
        c1: 1e6,
        ..unit(bus, pmax)
    }
}

/// A case of given levels and nothing else.
pub fn empty(mode: u8, ladder: Vec<f64>, above: usize) -> Case {
    Case {
        mode,
        above,
        ladder,
        ..Case::default()
    }
}

/// What a random network is like.
pub struct Spec {
    pub mode: u8,
    pub buses: usize,
    pub corridors: usize,
    pub generators: usize,
    pub above: usize,
    pub requested: usize,
    /// Load of a bus, MW, at most.
    pub load: f64,
    /// Length of a corridor, km, at most.
    pub km: f64,
    /// One bus in so many begins an island of its own.
    pub island_every: usize,
}

/// A random network after `spec`, with a target around its corridors.
pub fn network(random: &mut Random, spec: &Spec) -> Case {
    let levels = spec.above + spec.requested;
    let mut case = empty(spec.mode, ladder(random, levels), spec.above);
    case.buses = (0..spec.buses).map(|_| some_bus(random, spec)).collect();
    case.corridors = some_corridors(random, spec);
    case.generators = some_generators(random, spec, total_load(&case));
    fill_sheet(random, &mut case);
    case.target = match random.below(3) {
        0 => 0,
        1 => random.below(spec.corridors * 2 + 2) as u32,
        _ => random.below(spec.corridors * 4 + 10) as u32,
    };
    case
}

pub fn total_load(case: &Case) -> f64 {
    case.buses.iter().map(|bus| bus.reading).sum()
}

/// Lower levels more often than higher ones.
fn some_bus(random: &mut Random, spec: &Spec) -> Bus {
    let tier = random
        .below(spec.requested)
        .max(random.below(spec.requested));
    let load = match random.once_in(5) {
        true => 0.0,
        false => random.between(0.0, spec.load),
    };
    bus(tier, load)
}

/// A tree of islands first, then corridors between neighbours.
fn some_corridors(random: &mut Random, spec: &Spec) -> Vec<CorridorRecord> {
    let n = spec.buses;
    let mut ends = Vec::new();
    for i in 1..n {
        if !random.once_in(spec.island_every) {
            ends.push((i, i - 1 - random.below(i.min(5))));
        }
    }
    ends.truncate(spec.corridors);
    while n > 1 && ends.len() < spec.corridors {
        let a = random.below(n);
        let b = (a + random.from_to(1, (n - 1).min(6))) % n;
        ends.push((a, b));
    }
    ends.into_iter()
        .map(|(a, b)| {
            let (a, b) = random.pick(&[(a, b), (b, a)]);
            let share = random.between(0.9, 1.0);
            CorridorRecord {
                circuits: random.pick(&[0, 1, 1, 1, 1, 2]),
                length: random.between(1.0, spec.km),
                share: random.pick(&[1.0, share]),
                ..corridor(a, b)
            }
        })
        .collect()
}

/// Units whose capacity is about the load, a little less or a good deal more.
fn some_generators(random: &mut Random, spec: &Spec, load: f64) -> Vec<Generator> {
    if spec.buses == 0 {
        return Vec::new();
    }
    let margin = random.pick(&[0.7, 1.1, 1.5, 3.0]);
    let each = (load * margin / spec.generators.max(1) as f64).min(4e5);
    (0..spec.generators)
        .map(|_| {
            let pmax = each * random.between(0.3, 1.7);
            Generator {
                slack: u8::from(random.once_in(3)),
                pmin: random.pick(&[0.0, 0.0, 0.2]) * pmax,
                c1: random.between(0.5, 50.0),
                c2: random.pick(&[0.0, 0.002, 0.004, 0.1]),
                ..unit(random.below(spec.buses), pmax)
            }
        })
        .collect()
}

/// A chain of buses on one tier with a unit at its first bus and a load at
/// its last: every corridor carries the same flow.
pub fn chain(mode: u8, ladder: Vec<f64>, above: usize, buses: usize, load: f64) -> Case {
    let mut case = empty(mode, ladder, above);
    let tier = case.requested() - 1;
    case.buses = vec![bus(tier, 0.0); buses];
    case.buses[buses - 1].reading = load;
    case.corridors = (1..buses).map(|i| corridor(i - 1, i)).collect();
    case.generators = vec![Generator {
        slack: 1,
        ..unit(0, 2.0 * load)
    }];
    case
}
