//! Request K7: seeded case files moved into the other form and back.

use std::io;

use crate::compare::{describe_bytes, judge, printed_by, Outcome, Program};
use crate::generate::cases::moved::{file_to_move, FileToMove};
use crate::harness::case_file::MOST_BYTES;
use crate::harness::listing::answer_list;
use crate::harness::moves::{answer_move, Direction};
use crate::watch;

/// The file with zeros behind it, up to the most bytes.
fn padded(file: &[u8]) -> Vec<u8> {
    let mut padded = file.to_vec();
    padded.resize(MOST_BYTES, 0);
    padded
}

/// What the program reads: the direction's first letter, then the file.
fn told(direction: Direction, file: &[u8]) -> Vec<u8> {
    let letter: &[u8] = match direction {
        Direction::Forward => b"F",
        Direction::Back => b"B",
    };
    [letter, file].concat()
}

/// Moves the files of `count` seeds by `program`, and what is answered back
/// again; both are compared with the reference's, byte by byte. `listing`, or
/// the reference where there is none, lists each moved file as the file itself
/// is listed by the reference.
pub fn compare_moves(
    program: &Program,
    listing: Option<&Program>,
    direction: Direction,
    (first_seed, count): (u64, u64),
) -> io::Result<Outcome> {
    let mut outcome = Outcome::default();
    for seed in first_seed..first_seed + count {
        let FileToMove { family, bytes } = file_to_move(seed, direction);
        let (ours, taken) = watch::apart(|| answer_move(&bytes, direction));
        outcome.tally.branches(&taken);
        outcome.tally.moved(direction, family, &bytes, &ours);
        let mut moved = None;
        let goes_on = judge(
            program,
            told(direction, &bytes),
            seed,
            &mut outcome,
            |theirs, outcome| {
                let what = format!("seed {seed}, {family}");
                outcome.count(ours == theirs, || describe_bytes(&what, &ours, theirs));
                moved = Some(theirs.to_vec());
            },
        )?;
        if !goes_on {
            break;
        }
        let Some(moved) = moved.filter(|moved| moved.starts_with(b"HD")) else {
            continue;
        };
        let goes_on = judge(
            program,
            told(direction.other(), &moved),
            seed,
            &mut outcome,
            |theirs, outcome| {
                outcome.count(theirs == padded(&bytes), || {
                    format!("seed {seed}, {family}: moved and moved back it is another file")
                });
            },
        )?;
        if !goes_on {
            break;
        }
        let again = match listing {
            Some(listing) => printed_by(listing, &moved)?,
            None => answer_list(&moved).into_bytes(),
        };
        outcome.count(again == answer_list(&bytes).into_bytes(), || {
            format!("seed {seed}, {family}: the moved file is listed otherwise")
        });
    }
    Ok(outcome)
}
