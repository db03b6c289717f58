//! A refusal as documents 01 and 02 number them.

use std::fmt;

/// The number of a refusal and the lowest faulty index (0 if none).
#[derive(Clone, Copy, Debug, PartialEq, Eq)]
pub struct Refusal {
    pub number: u32,
    pub index: usize,
}

pub const LENGTH: u32 = 1;
pub const COUNT: u32 = 2;
pub const LADDER: u32 = 3;
pub const BUS: u32 = 4;
pub const GENERATOR: u32 = 5;
pub const CORRIDOR: u32 = 6;
pub const SHEET_ROW: u32 = 7;
pub const COST: u32 = 8;
pub const NOT_FINITE: u32 = 9;
pub const PLACE_OF_ANGLES: u32 = 10;
pub const RATING: u32 = 12;
pub const FILE_TOO_LONG: u32 = 13;
pub const FILE_ENDS: u32 = 14;
pub const MARK: u32 = 15;
pub const SMALL_FIELD: u32 = 16;
pub const AFTER_THE_END: u32 = 17;
pub const MODE: u32 = 18;
pub const UNEVEN: u32 = 19;
pub const SEASON_FULL: u32 = 20;
pub const WEIGHT: u32 = 21;
pub const SPREAD: u32 = 22;
pub const DISTRICTS: u32 = 24;
pub const ORDER: u32 = 30;

impl Refusal {
    pub fn new(number: u32, index: usize) -> Self {
        Self { number, index }
    }
}

impl fmt::Display for Refusal {
    fn fmt(&self, f: &mut fmt::Formatter) -> fmt::Result {
        write!(f, "RF {} {}", self.number, self.index)
    }
}

/// Refuses with `number` at the first of `records` that `is_faulty`.
pub fn first_fault<T>(
    number: u32,
    records: impl IntoIterator<Item = T>,
    is_faulty: impl FnMut(T) -> bool,
) -> Result<(), Refusal> {
    match records.into_iter().map(is_faulty).position(|faulty| faulty) {
        Some(index) => Err(Refusal::new(number, index)),
        None => Ok(()),
    }
}

/// Refuses a count above its bound with 2.
pub fn count_at_most(count: usize, bound: usize) -> Result<(), Refusal> {
    if count > bound {
        Err(Refusal::new(COUNT, 0))
    } else {
        Ok(())
    }
}
