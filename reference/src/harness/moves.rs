//! Moving a case file into the other form of its buses (document 02, K7), byte
//! by byte: what stands before the buses and behind them is copied.

use crate::harness::case_file::{read_form, MOST_BYTES};
use crate::harness::refusal::{Refusal, WEIGHT};

/// Where a file is moved.
#[derive(Clone, Copy, Debug, PartialEq, Eq)]
pub enum Direction {
    /// Each load becomes a reading with weight 1.
    Forward,
    /// Each reading, whose weight must be 1, becomes a load.
    Back,
}

impl Direction {
    pub fn of(word: &str) -> Option<Self> {
        match word {
            "forward" => Some(Self::Forward),
            "back" => Some(Self::Back),
            _ => None,
        }
    }

    pub fn word(self) -> &'static str {
        match self {
            Self::Forward => "forward",
            Self::Back => "back",
        }
    }

    pub fn other(self) -> Self {
        match self {
            Self::Forward => Self::Back,
            Self::Back => Self::Forward,
        }
    }
}

/// Bytes of the header, of a level, and of a bus before its weight.
const HEADER: usize = 15;
const LEVEL: usize = 10;
const PLAIN: usize = 11;
const WEIGHT_BYTES: usize = 8;

/// The file moved, in [`MOST_BYTES`] with zeros behind it; refused as reading
/// refuses a file whose buses must have the form that is moved, then with 21.
pub fn move_file(file: &[u8], direction: Direction) -> Result<Vec<u8>, Refusal> {
    let case = read_form(file, Some(direction == Direction::Back))?;
    let unlike_one = |i: &usize| case.buses[*i].weight != 1.0;
    if let Some(bus) = (0..case.buses.len()).find(unlike_one) {
        return Err(Refusal::new(WEIGHT, bus));
    }
    let (before, mut rest) = file.split_at(HEADER + LEVEL * case.ladder.len());
    let mut moved = before.to_vec();
    for _ in &case.buses {
        match direction {
            Direction::Forward => {
                let (bus, after) = rest.split_at(PLAIN);
                moved.extend(b"BV");
                moved.extend(&bus[2..]);
                moved.extend(1f64.to_le_bytes());
                rest = after;
            }
            Direction::Back => {
                let (bus, after) = rest.split_at(PLAIN + WEIGHT_BYTES);
                moved.extend(b"BU");
                moved.extend(&bus[2..PLAIN]);
                rest = after;
            }
        }
    }
    moved.extend(rest);
    // What is cut off here are zeros behind the records.
    moved.resize(MOST_BYTES, 0);
    Ok(moved)
}

/// The answer of the program that converts.
pub fn answer_move(file: &[u8], direction: Direction) -> Vec<u8> {
    match move_file(file, direction) {
        Ok(moved) => moved,
        Err(refusal) => format!("{refusal}\n").into_bytes(),
    }
}
