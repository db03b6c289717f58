//! The tables of a case and their bounds.

pub const MOST_BUSES: usize = 256;
pub const MOST_CORRIDORS: usize = 256;
pub const MOST_GENERATORS: usize = 128;
pub const MOST_LEVELS: usize = 5;
pub const MOST_TARGET: usize = 65_536;
pub const MOST_MODE: u8 = 5;
/// Modes from here on plan as those this much lower, and idle units serve what
/// the dispatch leaves of the demand (document 02, K4).
pub const SERVING: u8 = 3;

/// Everything a case file says, any value of which may still be out of range.
#[derive(Clone, Debug, Default, PartialEq)]
pub struct Case {
    pub mode: u8,
    pub target: u32,
    /// Ladder levels above the request; they come first in `ladder`.
    pub above: usize,
    pub ladder: Vec<f64>,
    pub buses: Vec<Bus>,
    pub generators: Vec<Generator>,
    pub corridors: Vec<CorridorRecord>,
    /// All levels of corridor 0 first.
    pub sheet: Vec<Line>,
}

impl Case {
    /// Levels of the request itself.
    pub fn requested(&self) -> usize {
        self.ladder.len() - self.above
    }
}

#[derive(Clone, Copy, Debug, PartialEq)]
pub struct Bus {
    /// Index among the requested levels.
    pub tier: u8,
    /// What the survey clerk called.
    pub reading: f64,
    /// What the reading counts for (document 02, K6); 1 in a BU.
    pub weight: f64,
    /// Whether it is a BV; in a file that is read all buses are, or none.
    pub weighed: bool,
}

impl Bus {
    /// A bus as a BU has it.
    pub fn plain(tier: u8, reading: f64) -> Self {
        Self {
            tier,
            reading,
            weight: 1.0,
            weighed: false,
        }
    }

    /// MW: the reading times its weight, rounded once.
    pub fn load(&self) -> f64 {
        self.reading * self.weight
    }
}

#[derive(Clone, Copy, Debug, Default, PartialEq)]
pub struct Generator {
    pub bus: u16,
    pub slack: u8,
    pub pmin: f64,
    pub pmax: f64,
    pub c1: f64,
    pub c2: f64,
}

#[derive(Clone, Copy, Debug, Default, PartialEq)]
pub struct CorridorRecord {
    pub a: u16,
    pub b: u16,
    pub circuits: u8,
    pub length: f64,
    pub share: f64,
    /// Its own cap (document 02, K5); 0 for none.
    pub cap: u8,
    /// Whether it was read from a CP, which may have cap 0.
    pub marked: bool,
}

impl CorridorRecord {
    /// Whether it is written as CP.
    pub fn is_capped(&self) -> bool {
        self.marked || self.cap > 0
    }
}

#[derive(Clone, Copy, Debug, Default, PartialEq)]
pub struct Line {
    pub r: f64,
    pub x: f64,
    pub b: f64,
    pub rate: f64,
    /// 0 thermal, 1 loadability.
    pub basis: u8,
}
