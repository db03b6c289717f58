//! Case files for whole listings: drafts of each mode and shape, made from a few figures.

use crate::draws::Draws;
use reference::harness::tables::{Bus, Case, CorridorRecord, Generator, Line};

/// What a draft is made of.
#[derive(Clone, Copy)]
pub struct Shape {
    pub mode: u8,
    pub target: u32,
    /// kV of the levels, highest first; every bus begins at the lowest.
    pub ladder: &'static [f64],
    pub buses: usize,
    /// The buses fall into so many trees of equal size.
    pub islands: usize,
    /// Corridors, those of the trees among them.
    pub corridors: usize,
    /// The least and the most km of a corridor, and the most MW of a bus.
    pub km: (f64, f64),
    pub load: f64,
}

pub const EXPAND: u8 = 0;
pub const REINFORCE: u8 = 1;
pub const OBSERVE: u8 = 2;
pub const EXPAND_SERVING: u8 = 3;
pub const REINFORCE_SERVING: u8 = 4;
pub const OBSERVE_SERVING: u8 = 5;

/// A feeder in Expand.
pub const FEEDER: Shape = Shape {
    mode: EXPAND,
    target: 0,
    ladder: &[230.0, 138.0],
    buses: 256,
    islands: 1,
    corridors: 256,
    km: (8.0, 28.0),
    load: 5.0,
};

/// Bus i hangs on one of the three before it; other corridors join any two buses of an island. A generator at every eighth
/// bus.
pub fn draft(shape: Shape) -> Case {
    let mut draws = Draws::new(shape.buses);
    let mut case = Case {
        mode: shape.mode,
        target: shape.target,
        above: 0,
        ladder: shape.ladder.to_vec(),
        ..Case::default()
    };
    for i in 0..shape.buses {
        let load = 1.0 + (shape.load - 1.0) * draws.next();
        let tier = shape.ladder.len() as u8 - 1;
        case.buses.push(Bus::plain(tier, load));
        if i % 8 == 0 {
            case.generators.push(Generator {
                bus: i as u16,
                slack: u8::from(i == 0),
                pmin: 0.0,
                pmax: 8.0 * shape.load,
                c1: 10.0 + 20.0 * draws.next(),
                c2: 0.01,
            });
        }
    }
    let size = shape.buses / shape.islands;
    for i in (0..shape.buses).filter(|i| i % size > 0) {
        let near = i - 1 - draws.below(3).min(i % size - 1);
        join(&mut case, shape, near, i, draws.next());
    }
    while case.corridors.len() < shape.corridors {
        let (a, b) = (draws.below(shape.buses), draws.below(size));
        let b = a / size * size + b;
        if a != b {
            join(&mut case, shape, a, b, draws.next());
        }
    }
    case
}

fn join(case: &mut Case, shape: Shape, a: usize, b: usize, turn: f64) {
    let km = shape.km.0 + (shape.km.1 - shape.km.0) * turn;
    case.corridors.push(CorridorRecord {
        a: a as u16,
        b: b as u16,
        circuits: 1,
        length: km,
        share: 1.0,
        cap: 0,
        marked: false,
    });
    for kv in shape.ladder {
        let ohms = kv * kv / 100.0;
        case.sheet.push(Line {
            r: 0.1 * km / ohms,
            x: 0.4 * km / ohms,
            b: 0.0,
            rate: kv * 2.0,
            basis: 0,
        });
    }
}

/// The same, the first corridor of so much resistance that its susceptance is zero: what lies behind it never settles.
pub fn hopeless(shape: Shape) -> Case {
    let mut case = draft(shape);
    for line in &mut case.sheet[..shape.ladder.len()] {
        line.r = 1e160;
    }
    case
}
