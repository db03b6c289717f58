//! The command line of the reference build.

use std::io::{self, Read, Write};
use std::process::ExitCode;

use reference::compare::{
    compare_answers, compare_cases, compare_padded, compare_seasons, wrong_answers, Asking,
    Outcome, Program,
};
use reference::differences::sheet_differences;
use reference::generate::cases::moved::file_to_move;
use reference::generate::cases::pairs::pair;
use reference::generate::cases::{case_file, ones_file, serving_file, without_weights};
use reference::generate::requests::{as_input, batch, KINDS};
use reference::generate::seasons::{as_blocks, season};
use reference::harness::answers::answer_all;
use reference::harness::case_file::{answer_read, write_case};
use reference::harness::case_text::parse_text;
use reference::harness::join::answer_join;
use reference::harness::listing::answer_list;
use reference::harness::moves::{answer_move, Direction};
use reference::harness::preview::answer_preview;
use reference::harness::season::answer_season;
use reference::harness::small::small_networks;
use reference::joins::compare_joins;
use reference::moves::compare_moves;
use reference::previews::{compare_previews, preview_input};
use reference::tally::Tally;
use reference::targets::compare_targets;
use reference::theorem::theorem;

const USAGE: &str = "usage:
  reference answers                                          requests on standard input
  reference list                                             a case on standard input
  reference read                                             a case on standard input
  reference requests KIND SEED COUNT
  reference case SEED
  reference serving SEED                                     a case in modes 3 to 5
  reference compare-answers PROGRAM KIND FIRST_SEED BATCHES COUNTS
  reference compare-cases PROGRAM list|read|serve|ones FIRST_SEED COUNT COUNTS
  reference compare-padded PROGRAM                           padded files made by hand, read by both
  reference compare-targets PROGRAM FIRST_SEED COUNT          each Expand case under several targets
  reference move forward|back                                a case file on standard input, into the other form
  reference to-move forward|back SEED                        a case file for it
  reference compare-moves PROGRAM forward|back FIRST_SEED COUNT COUNTS [LISTING]
  reference join                                             two case files on standard input, the first in 65,536 bytes
  reference to-join SEED                                     two case files for it
  reference compare-joins PROGRAM FIRST_SEED COUNT COUNTS [LISTING]
  reference season                                           case files on standard input, 65,536 bytes each
  reference season-files SEED
  reference compare-seasons PROGRAM FIRST_SEED COUNT
  reference preview                                          a case file and targets on standard input
  reference preview-input SEED
  reference compare-previews PROGRAM FIRST_SEED COUNT COUNTS
  reference small PLACE                                      the case file of a small network
  reference branches COUNTS...
  reference judge REQUESTS ANSWERS
  reference sheet-differences PROGRAM FIRST_SEED BATCHES
  reference write                                            a case as text on standard input
  reference theorem                                          a case on standard input
KIND is one of SQRT IMP LEAD DISP ANG PLACE SHEET ROWS LAID PREV BAD.";

/// Why a command did not run to its end.
enum Failure {
    Usage,
    Io(io::Error),
    /// It ran, and what it looked for is not so.
    Found,
}

impl From<io::Error> for Failure {
    fn from(error: io::Error) -> Self {
        Failure::Io(error)
    }
}

fn main() -> ExitCode {
    let arguments: Vec<String> = std::env::args().skip(1).collect();
    let words: Vec<&str> = arguments.iter().map(String::as_str).collect();
    match run(&words) {
        Ok(()) => ExitCode::SUCCESS,
        Err(Failure::Found) => ExitCode::from(1),
        Err(Failure::Usage) => {
            eprintln!("{USAGE}");
            ExitCode::from(2)
        }
        Err(Failure::Io(error)) => {
            eprintln!("reference: {error}");
            ExitCode::from(2)
        }
    }
}

fn run(words: &[&str]) -> Result<(), Failure> {
    match *words {
        ["answers"] => write(answer_all(&input()?).as_bytes()),
        ["list"] => write(answer_list(&input()?).as_bytes()),
        ["read"] => write(answer_read(&input()?).as_bytes()),
        ["requests", kind, seed, count] => {
            let requests = batch(kind, number(seed)?, number(count)? as usize);
            write(&as_input(&requests.ok_or(Failure::Usage)?))
        }
        ["compare-answers", path, kind, first, batches, counts] if KINDS.contains(&kind) => {
            let program = Program::at(path);
            let outcome = compare_answers(&program, kind, number(first)?, number(batches)?)?;
            report_counted(kind, "requests", &outcome, counts)
        }
        ["judge", requests, answers] => {
            let (requests, answers) = (std::fs::read(requests)?, std::fs::read(answers)?);
            match wrong_answers(&requests, &answers) {
                0 => Ok(()),
                _ => Err(Failure::Found),
            }
        }
        ["sheet-differences", path, first, batches] => {
            let program = Program::at(path);
            let text = sheet_differences(&program, number(first)?, number(batches)?)?;
            write(text.as_bytes())
        }
        ["case", seed] => write(&case_file(number(seed)?).bytes),
        ["serving", seed] => write(&serving_file(number(seed)?).bytes),
        ["compare-cases", path, what, first, count, counts] => {
            let program = Program::at(path);
            let asking: Asking = match what {
                "list" => ("list", case_file, answer_list),
                "read" => ("read", case_file, answer_read),
                "serve" => ("serve", serving_file, answer_list),
                "ones" => ("ones", ones_file, |file| {
                    answer_list(&without_weights(file))
                }),
                _ => return Err(Failure::Usage),
            };
            let outcome = compare_cases(&program, asking, number(first)?, number(count)?)?;
            report_counted(what, "cases", &outcome, counts)
        }
        ["compare-padded", path] => {
            let program = Program::at(path);
            report("padded", "files", &compare_padded(&program)?)
        }
        ["compare-targets", path, first, count] => {
            let program = Program::at(path);
            let outcome = compare_targets(&program, number(first)?, number(count)?)?;
            report("targets", "comparisons", &outcome)
        }
        ["move", word] => {
            let direction = Direction::of(word).ok_or(Failure::Usage)?;
            write(&answer_move(&input()?, direction))
        }
        ["to-move", word, seed] => {
            let direction = Direction::of(word).ok_or(Failure::Usage)?;
            write(&file_to_move(number(seed)?, direction).bytes)
        }
        ["compare-moves", path, word, first, count, counts, ref listing @ ..]
            if listing.len() < 2 =>
        {
            let direction = Direction::of(word).ok_or(Failure::Usage)?;
            let program = Program::at(path);
            let listing = listing.first().map(|path| Program::at(path));
            let seeds = (number(first)?, number(count)?);
            let outcome = compare_moves(&program, listing.as_ref(), direction, seeds)?;
            report_counted(word, "comparisons of moved files", &outcome, counts)
        }
        ["join"] => write(&answer_join(&input()?)),
        ["to-join", seed] => write(&pair(number(seed)?).input()),
        ["compare-joins", path, first, count, counts, ref listing @ ..] if listing.len() < 2 => {
            let listing = listing.first().map(|path| Program::at(path));
            let seeds = (number(first)?, number(count)?);
            let outcome = compare_joins(&Program::at(path), listing.as_ref(), seeds.0, seeds.1)?;
            report_counted("joins", "comparisons", &outcome, counts)
        }
        ["season"] => write(answer_season(&input()?).as_bytes()),
        ["season-files", seed] => write(&as_blocks(&season(number(seed)?).files, false)),
        ["compare-seasons", path, first, count] => {
            let program = Program::at(path);
            let outcome = compare_seasons(&program, number(first)?, number(count)?)?;
            report("seasons", "answers", &outcome)
        }
        ["preview"] => write(answer_preview(&input()?).as_bytes()),
        ["preview-input", seed] => write(&preview_input(number(seed)?)),
        ["compare-previews", path, first, count, counts] => {
            let program = Program::at(path);
            let outcome = compare_previews(&program, number(first)?, number(count)?)?;
            report_counted("previews", "answers", &outcome, counts)
        }
        ["small", place] => {
            let place = usize::try_from(number(place)?).map_err(|_| Failure::Usage)?;
            write(&write_case(
                small_networks().get(place).ok_or(Failure::Found)?,
            ))
        }
        ["branches", ref files @ ..] if !files.is_empty() => branches(files),
        ["write"] => {
            let text = String::from_utf8(input()?).map_err(|_| Failure::Found)?;
            write(&write_case(&parse_text(&text).ok_or(Failure::Found)?))
        }
        ["theorem"] => write(theorem(&input()?).ok_or(Failure::Found)?.as_bytes()),
        _ => Err(Failure::Usage),
    }
}

fn number(word: &str) -> Result<u64, Failure> {
    word.parse().map_err(|_| Failure::Usage)
}

fn input() -> io::Result<Vec<u8>> {
    let mut bytes = Vec::new();
    io::stdin().lock().read_to_end(&mut bytes)?;
    Ok(bytes)
}

fn write(bytes: &[u8]) -> Result<(), Failure> {
    Ok(io::stdout().lock().write_all(bytes)?)
}

/// Says how a comparison ended and writes what it counted to the file `counts`.
fn report_counted(
    what: &str,
    things: &str,
    outcome: &Outcome,
    counts: &str,
) -> Result<(), Failure> {
    std::fs::write(counts, outcome.tally.to_string())?;
    report(what, things, outcome)
}

/// Says how a comparison ended.
fn report(what: &str, things: &str, outcome: &Outcome) -> Result<(), Failure> {
    println!(
        "{what}: {} {things}, {} differences",
        outcome.compared, outcome.differences
    );
    match outcome.differences {
        0 => Ok(()),
        _ => Err(Failure::Found),
    }
}

/// Adds up what comparisons counted.
fn branches(files: &[&str]) -> Result<(), Failure> {
    let mut tally = Tally::default();
    for file in files {
        let text = std::fs::read_to_string(file)?;
        if tally.read(&text).is_none() {
            eprintln!("reference: {file} holds no counts");
            return Err(Failure::Found);
        }
    }
    let (text, too_low) = tally.report();
    write(text.as_bytes())?;
    match too_low {
        0 => Ok(()),
        _ => Err(Failure::Found),
    }
}
