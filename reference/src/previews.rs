//! Request K1: seeded case files previewed under several targets. The program
//! plans a case once; the reference plans it anew for each target.

use std::io;

use crate::compare::{judge, lines, Outcome, Program};
use crate::generate::cases::{case_file, serving_file};
use crate::harness::case_file::read_case;
use crate::harness::preview::{answer_preview, as_input, fills, Kept};
use crate::harness::tables::{Case, MOST_TARGET};

/// The targets of an answered Expand case, by what they are: each place where
/// filling changes, its bound and one past it.
pub const TARGETS: [&str; 7] = [
    "0",
    "its own",
    "the total before filling",
    "one more",
    "all full",
    "65,536",
    "65,537",
];

/// A case that is refused, or that does not fill.
pub const OTHER: &str = "no filling";

type Asked = Vec<(&'static str, usize)>;

/// What the file is previewed under.
fn asked(file: &[u8]) -> Asked {
    let read = read_case(file).and_then(|case| Ok((Kept::of(&case)?, case)));
    match read {
        Ok((kept, case)) if fills(kept.mode) => filled(&kept, &case),
        _ => [0, 7, MOST_TARGET + 1]
            .map(|target| (OTHER, target))
            .to_vec(),
    }
}

fn filled(kept: &Kept, case: &Case) -> Asked {
    let before: usize = kept.before.iter().sum();
    let targets = [
        0,
        case.target as usize,
        before,
        before + 1,
        kept.when_full(),
        MOST_TARGET,
        MOST_TARGET + 1,
    ];
    TARGETS.into_iter().zip(targets).collect()
}

fn input_of(file: &[u8], asked: &Asked) -> Vec<u8> {
    let targets: Vec<usize> = asked.iter().map(|&(_, target)| target).collect();
    as_input(file, &targets)
}

/// The input of a seed, as the preview program reads it.
pub fn preview_input(seed: u64) -> Vec<u8> {
    let file = file_of(seed);
    input_of(&file, &asked(&file))
}

/// The answer for each target, cut where a line `PV` begins; one piece where
/// the case is refused.
fn answers(printed: &[u8]) -> Vec<String> {
    let mut answers: Vec<String> = Vec::new();
    for line in lines(printed) {
        let line = String::from_utf8_lossy(line);
        match answers.last_mut() {
            Some(last) if !line.starts_with("PV ") => *last += &format!("\n{line}"),
            _ => answers.push(line.into_owned()),
        }
    }
    answers
}

/// The file of a seed: of each fifth one in modes 3 to 5.
fn file_of(seed: u64) -> Vec<u8> {
    match seed % 5 {
        4 => serving_file(seed).bytes,
        _ => case_file(seed).bytes,
    }
}

/// Compares the previews of `count` case files, target by target.
pub fn compare_previews(program: &Program, first_seed: u64, count: u64) -> io::Result<Outcome> {
    let mut outcome = Outcome::default();
    for seed in first_seed..first_seed + count {
        let file = file_of(seed);
        let asked = asked(&file);
        let input = input_of(&file, &asked);
        let printed = answer_preview(&input).into_bytes();
        let ours = answers(&printed);
        for (answer, (what, _)) in ours.iter().zip(&asked) {
            outcome.tally.preview(what, answer);
        }
        let goes_on = judge(program, input, seed, &mut outcome, |theirs, outcome| {
            outcome.count(printed.last() == theirs.last(), || {
                format!("seed {seed}: the last line feed differs")
            });
            let theirs = answers(theirs);
            for place in 0..ours.len().max(theirs.len()) {
                let (our, their) = (ours.get(place), theirs.get(place));
                outcome.count(our == their, || {
                    format!(
                        "seed {seed}, answer {place}\n  reference {our:?}\n  program   {their:?}"
                    )
                });
            }
        })?;
        if !goes_on {
            break;
        }
    }
    Ok(outcome)
}

#[cfg(test)]
mod tests {
    use super::*;

    #[test]
    fn an_answer_for_each_target() {
        let printed = b"PV 0\nCO 0 1\nCO 1 2\nPV 9\nRF 18 0\nPV 1\n";
        let cut = ["PV 0\nCO 0 1\nCO 1 2", "PV 9\nRF 18 0", "PV 1"];
        assert_eq!(answers(printed), cut);
        assert_eq!(answers(b"RF 15 0\n"), ["RF 15 0"]);
    }
}
