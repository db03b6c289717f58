//! The smallest file with bytes behind its records, made by hand: the first that
//! is not zero stands in each place of the first and of the last words.

use super::damage::smallest_file;
use super::Extras;
use crate::harness::case_file::MOST_BYTES;

/// Three words: up to here every length and every place is tried.
const SHORT: usize = 24;

/// How many places at each end of longer padding: two words, and one byte.
const ENDS: usize = 17;

/// The byte that is not zero, and those behind it.
const BYTES: [(u8, u8); 2] = [(1, 0), (128, 255)];

/// Places among `padding` bytes: all of a few, of many those at the ends and one
/// between.
fn places(padding: usize) -> Vec<usize> {
    if padding <= SHORT {
        return (0..padding).collect();
    }
    let last = padding - ENDS..padding;
    (0..ENDS).chain([padding / 2]).chain(last).collect()
}

/// The file with so many bytes behind it: zeros alone, then a byte in each place.
fn padded(padding: usize) -> Vec<Vec<u8>> {
    let mut zeros = smallest_file(Extras::default());
    let end = zeros.len();
    zeros.resize(end + padding, 0);
    let mut files = vec![zeros.clone()];
    for place in places(padding) {
        for (byte, behind) in BYTES {
            let mut file = zeros.clone();
            file[end + place..].fill(behind);
            file[end + place] = byte;
            files.push(file);
        }
    }
    files
}

/// All these files: with each few bytes behind the records, and with as many as
/// fill the file or leave up to seven free, so that every rest of a word is met.
pub fn padded_files() -> Vec<Vec<u8>> {
    let full = MOST_BYTES - smallest_file(Extras::default()).len();
    (0..=SHORT)
        .chain(full - 7..=full)
        .flat_map(padded)
        .collect()
}
