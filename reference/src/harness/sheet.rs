//! The line office's sheet (document 02, K8): what is asked, its refusals, the
//! rows by the published `line_parameters`, a corridor's rows of one of two
//! sheets; and a sheet by corridor laid out by level (K11).

use crate::electrical::branches::class_line_parameters;
use crate::harness::checks::{ladder_is_good, length_is_good, spread_is_good};
use crate::harness::refusal::{
    count_at_most, first_fault, Refusal, CORRIDOR, COUNT, LENGTH, SPREAD,
};
use crate::harness::tables::{MOST_CORRIDORS, MOST_LEVELS};

/// Figures of a row: r, x, b, rate, basis.
pub const ROW: usize = 5;

/// What the sheet is worked out from.
#[derive(Clone, Debug, PartialEq)]
pub struct SheetRequest {
    /// The levels' kV.
    pub ladder: Vec<f64>,
    /// Length, km, and impedance spread of each corridor.
    pub corridors: Vec<(f64, f64)>,
}

fn counts_are_good(levels: usize, corridors: usize) -> Result<(), Refusal> {
    count_at_most(levels, MOST_LEVELS)?;
    count_at_most(corridors, MOST_CORRIDORS)?;
    match levels {
        0 => Err(Refusal::new(COUNT, 0)),
        _ => Ok(()),
    }
}

impl SheetRequest {
    /// Refusals 2, 3, 6 and 22.
    pub fn check(&self) -> Result<(), Refusal> {
        counts_are_good(self.ladder.len(), self.corridors.len())?;
        ladder_is_good(&self.ladder)?;
        first_fault(CORRIDOR, &self.corridors, |&(km, _)| !length_is_good(km))?;
        first_fault(SPREAD, &self.corridors, |&(_, spread)| {
            !spread_is_good(spread)
        })
    }

    /// The rows as the published code works them out, all levels of corridor
    /// 0 first.
    pub fn published(&self) -> Vec<[f64; ROW]> {
        let of_corridor = |&(km, spread): &(f64, f64)| {
            self.ladder
                .iter()
                .map(move |&kv| published_row(kv, km, spread))
        };
        self.corridors.iter().flat_map(of_corridor).collect()
    }
}

/// A row by the published code.
pub fn published_row(kv: f64, km: f64, spread: f64) -> [f64; ROW] {
    let (r, x, b, rate, basis) = class_line_parameters(kv, km, spread);
    [r, x, b, rate, if basis == "thermal" { 0.0 } else { 1.0 }]
}

/// What a corridor's rows are asked of.
pub struct RowsRequest {
    pub corridors: usize,
    pub levels: usize,
    /// How many corridors the surveyed sheet holds.
    pub count: usize,
    pub corridor: usize,
    pub surveyed: Vec<f64>,
    pub worked: Vec<f64>,
}

impl RowsRequest {
    /// The corridor's rows, or none where another operation would refuse.
    pub fn rows(&self) -> &[f64] {
        let figures = |corridors: usize| ROW * corridors * self.levels;
        if counts_are_good(self.levels, self.corridors).is_err()
            || self.count > self.corridors
            || self.surveyed.len() != figures(self.count)
            || self.worked.len() != figures(self.corridors)
            || self.corridor >= self.corridors
        {
            return &[];
        }
        let sheet = match self.corridor < self.count {
            true => &self.surveyed,
            false => &self.worked,
        };
        &sheet[figures(self.corridor)..figures(self.corridor + 1)]
    }
}

/// The rows by corridor, laid out by level: the first row of each corridor,
/// then the second, and so on.
pub fn by_level<T: Copy>(rows: &[T], levels: usize) -> Vec<T> {
    (0..levels)
        .flat_map(|level| rows.iter().skip(level).step_by(levels))
        .copied()
        .collect()
}

/// A sheet to be laid out by level.
pub struct LaidRequest {
    pub corridors: usize,
    pub levels: usize,
    /// The figures by corridor.
    pub rows: Vec<f64>,
    /// The places of the sheet that is written.
    pub places: usize,
}

impl LaidRequest {
    /// The figures by level, or refusal 1 or 2.
    pub fn laid(&self) -> Result<Vec<f64>, Refusal> {
        let figures = ROW * self.corridors * self.levels;
        if self.rows.len() != figures || self.places != figures {
            return Err(Refusal::new(LENGTH, 0));
        }
        counts_are_good(self.levels, self.corridors)?;
        let rows: Vec<&[f64]> = self.rows.chunks(ROW).collect();
        Ok(by_level(&rows, self.levels).concat())
    }
}
