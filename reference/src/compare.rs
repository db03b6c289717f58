//! Comparing a program with the reference, seed by seed: the same input for
//! both, the answers line by line. What was compared is counted on the way.

use std::io::{self, Read, Write};
use std::process::{Child, Command, ExitStatus, Stdio};
use std::sync::mpsc;
use std::thread;
use std::time::{Duration, Instant};

use crate::generate::cases::padding::padded_files;
use crate::generate::cases::CaseFile;
use crate::generate::random::Random;
use crate::generate::requests::{as_input, batch, Request, MOST_REQUESTS};
use crate::generate::seasons::{as_blocks, season, Season};
use crate::harness::answers::{answer_all, sheet_request};
use crate::harness::case_file::answer_read;
use crate::harness::figures::{listed, parse_hex};
use crate::harness::season::answer_season;
use crate::harness::sheet::ROW;
use crate::judge::{judge as judge_sheet, Verdict};
use crate::tally::Tally;
use crate::watch;

/// Differences that are printed in full; the rest are counted.
const SHOWN: usize = 5;

/// How long a program may take for one input.
pub const LIMIT: Duration = Duration::from_secs(120);

/// How long to wait before asking again whether a program has ended that has
/// written its last.
const PAUSE: Duration = Duration::from_micros(50);

/// A program that is compared; it reads standard input and takes no arguments.
pub struct Program<'a> {
    pub path: &'a str,
    /// How long one run may take.
    pub limit: Duration,
}

impl<'a> Program<'a> {
    pub fn at(path: &'a str) -> Self {
        Self { path, limit: LIMIT }
    }
}

/// How many answers were compared, how many differed, and what was met.
#[derive(Default)]
pub struct Outcome {
    pub compared: usize,
    pub differences: usize,
    pub tally: Tally,
}

impl Outcome {
    /// Counts one comparison; `describe` says what differs.
    pub(crate) fn count(&mut self, equal: bool, describe: impl FnOnce() -> String) {
        self.compared += 1;
        if !equal {
            self.differences += 1;
            if self.differences <= SHOWN {
                println!("{}", describe());
            }
        }
    }
}

/// How a run of a program ended.
pub enum Run {
    /// With status 0; what it wrote.
    Ended(Vec<u8>),
    /// With another status, or by a signal.
    Failed(ExitStatus),
    /// Not within its time.
    Hung,
}

impl Program<'_> {
    /// Runs the program on `input`.
    pub fn run(&self, input: Vec<u8>) -> io::Result<Run> {
        let until = Instant::now() + self.limit;
        let mut child = Command::new(self.path)
            .stdin(Stdio::piped())
            .stdout(Stdio::piped())
            .spawn()?;
        let mut stdin = child.stdin.take().expect("standard input is piped");
        let mut stdout = child.stdout.take().expect("standard output is piped");
        // Threads of their own: a program may answer before it has read all, and
        // may never end. One that stops reading shows in its answers.
        thread::spawn(move || stdin.write_all(&input));
        let (sender, written) = mpsc::channel();
        thread::spawn(move || {
            let mut output = Vec::new();
            let read = stdout.read_to_end(&mut output);
            // Nobody listens any more where the program hung.
            let _ = sender.send(read.map(|_| output));
        });
        let Ok(output) = written.recv_timeout(self.limit) else {
            return end(child);
        };
        let output = output?;
        loop {
            match child.try_wait()? {
                Some(status) if status.success() => return Ok(Run::Ended(output)),
                Some(status) => return Ok(Run::Failed(status)),
                None if Instant::now() > until => return end(child),
                None => thread::sleep(PAUSE),
            }
        }
    }
}

fn end(mut child: Child) -> io::Result<Run> {
    child.kill()?;
    child.wait()?;
    Ok(Run::Hung)
}

/// The lines of an output; what stands after the last line feed counts as one.
pub fn lines(output: &[u8]) -> Vec<&[u8]> {
    let mut lines: Vec<&[u8]> = output.split(|&c| c == b'\n').collect();
    if lines.last().is_some_and(|last| last.is_empty()) {
        lines.pop();
    }
    lines
}

/// The line at `place`, as text.
fn shown(lines: &[&[u8]], place: usize) -> String {
    match lines.get(place) {
        Some(line) => String::from_utf8_lossy(line).into_owned(),
        None => "(no line)".to_owned(),
    }
}

/// Whether an answer is right: equal to ours, or where a sheet is answered,
/// right by the judge.
fn agree(line: Option<&[u8]>, ours: Option<&[u8]>, theirs: Option<&[u8]>) -> Verdict {
    let request = match ours {
        Some(words) if words.starts_with(b"OK") => line.and_then(sheet_request),
        _ => None,
    };
    match (request, theirs.and_then(rows_of)) {
        (Some(request), Some(rows)) => judge_sheet(&request, &rows),
        (Some(_), None) => Err("no rows".to_owned()),
        (None, _) if ours == theirs => Ok(()),
        (None, _) => Err("another answer".to_owned()),
    }
}

/// The rows of an answered sheet, every figure as it is listed.
pub fn rows_of(answer: &[u8]) -> Option<Vec<[f64; ROW]>> {
    let mut words = answer.split(|&c| c == b' ');
    words.next().filter(|&word| word == b"OK")?;
    let figures: Vec<f64> = words
        .map(|word| {
            let v = f64::from_bits(parse_hex(word)?);
            (listed(v).as_bytes() == word).then_some(v)
        })
        .collect::<Option<_>>()?;
    let rows = figures.chunks(ROW).map(|row| row.try_into().ok());
    rows.collect()
}

/// Counts how a run ended and has `compare` look at what it wrote; answers
/// whether to go on with the next input.
pub(crate) fn judge(
    program: &Program,
    input: Vec<u8>,
    seed: u64,
    outcome: &mut Outcome,
    compare: impl FnOnce(&[u8], &mut Outcome),
) -> io::Result<bool> {
    match program.run(input)? {
        Run::Ended(written) => compare(&written, outcome),
        Run::Failed(status) => outcome.count(false, || {
            format!("seed {seed}: the program ended with {status}")
        }),
        Run::Hung => {
            let limit = program.limit.as_secs();
            outcome.count(false, || {
                format!("seed {seed}: the program did not end within {limit} s; nothing more is compared")
            });
            return Ok(false);
        }
    }
    Ok(true)
}

/// What a program prints of a file, or how else it ended.
pub(crate) fn printed_by(program: &Program, file: &[u8]) -> io::Result<Vec<u8>> {
    match program.run(file.to_vec())? {
        Run::Ended(printed) => Ok(printed),
        Run::Failed(status) => Ok(format!("ended with {status}").into_bytes()),
        Run::Hung => Ok(b"did not end".to_vec()),
    }
}

/// The first byte at which two files differ, or their refusals.
pub(crate) fn describe_bytes(what: &str, ours: &[u8], theirs: &[u8]) -> String {
    let said = |answer: &[u8]| match answer.starts_with(b"RF") {
        true => String::from_utf8_lossy(answer).trim_end().to_owned(),
        false => format!("{} bytes", answer.len()),
    };
    let place = ours.iter().zip(theirs).position(|(a, b)| a != b);
    let (ours, theirs) = (said(ours), said(theirs));
    format!("{what}, byte {place:?}\n  reference {ours}\n  program   {theirs}")
}

/// Compares `batches` batches of requests of one kind.
pub fn compare_answers(
    program: &Program,
    kind: &str,
    first_seed: u64,
    batches: u64,
) -> io::Result<Outcome> {
    let mut outcome = Outcome::default();
    for seed in first_seed..first_seed + batches {
        let (requests, _) = watch::apart(|| batch(kind, seed, MOST_REQUESTS));
        let requests = requests.expect("the kind is known");
        let input = input_of_seed(&requests, seed);
        let (ours, taken) = watch::apart(|| answer_all(&input).into_bytes());
        outcome.tally.branches(&taken);
        for (request, answer) in requests.iter().zip(lines(&ours)) {
            outcome.tally.request(kind, request, answer);
        }
        let goes_on = judge(program, input, seed, &mut outcome, |theirs, outcome| {
            compare_lines(&requests, seed, &ours, theirs, outcome)
        })?;
        if !goes_on {
            break;
        }
    }
    Ok(outcome)
}

/// The answers to one batch.
fn compare_lines(
    requests: &[Request],
    seed: u64,
    ours: &[u8],
    theirs: &[u8],
    outcome: &mut Outcome,
) {
    let (our_lines, their_lines) = (lines(ours), lines(theirs));
    for place in 0..our_lines.len().max(their_lines.len()) {
        let line = requests.get(place).map(|request| &request.line[..]);
        let (our_line, their_line) = (our_lines.get(place), their_lines.get(place));
        let verdict = agree(line, our_line.copied(), their_line.copied());
        outcome.count(verdict.is_ok(), || {
            let (family, request) = match requests.get(place) {
                Some(request) => (request.family, String::from_utf8_lossy(&request.line)),
                None => ("no request", "".into()),
            };
            let why = verdict.err().unwrap_or_default();
            format!(
                "seed {seed}, {family}: {why}\n  request   {request}\n  reference {}\n  program   {}",
                shown(&our_lines, place),
                shown(&their_lines, place)
            )
        });
    }
    if our_lines.len() == their_lines.len() && theirs.last() != ours.last() {
        outcome.count(false, || format!("seed {seed}: the last line feed differs"));
    }
}

/// How many of the stored answers to some requests are wrong.
pub fn wrong_answers(requests: &[u8], answers: &[u8]) -> usize {
    let ours = answer_all(requests).into_bytes();
    let (asked, ours, theirs) = (lines(requests), lines(&ours), lines(answers));
    (0..ours.len().max(theirs.len()))
        .filter(|&i| {
            let [line, ours, theirs] = [&asked, &ours, &theirs].map(|l| l.get(i).copied());
            agree(line, ours, theirs).is_err()
        })
        .count()
}

/// The batch as input; every fifth seed leaves out the last line feed, where
/// the last line is still a request.
fn input_of_seed(requests: &[Request], seed: u64) -> Vec<u8> {
    let mut input = as_input(requests);
    if seed % 5 == 4 {
        input.pop();
    }
    input
}

/// Case files that are compared: the word for it, how a seed's file is made,
/// and what the reference answers to it.
pub type Asking = (&'static str, fn(u64) -> CaseFile, fn(&[u8]) -> String);

/// Compares the answers to `count` case files.
pub fn compare_cases(
    program: &Program,
    (what, make, answer): Asking,
    first_seed: u64,
    count: u64,
) -> io::Result<Outcome> {
    let mut outcome = Outcome::default();
    for seed in first_seed..first_seed + count {
        let (file, _) = watch::apart(|| make(seed));
        let (ours, taken) = watch::apart(|| answer(&file.bytes));
        outcome.tally.branches(&taken);
        outcome.tally.case(what, &file, &ours);
        let CaseFile { family, bytes } = file;
        let goes_on = judge(program, bytes, seed, &mut outcome, |theirs, outcome| {
            compare_listings(&family, seed, ours.as_bytes(), theirs, outcome)
        })?;
        if !goes_on {
            break;
        }
    }
    Ok(outcome)
}

/// Compares what is read of the padded files that are made by hand.
pub fn compare_padded(program: &Program) -> io::Result<Outcome> {
    let mut outcome = Outcome::default();
    for (place, file) in padded_files().into_iter().enumerate() {
        let ours = answer_read(&file);
        let place = place as u64;
        let goes_on = judge(program, file, place, &mut outcome, |theirs, outcome| {
            compare_listings("padded by hand", place, ours.as_bytes(), theirs, outcome)
        })?;
        if !goes_on {
            break;
        }
    }
    Ok(outcome)
}

/// The answers to one case file.
fn compare_listings(family: &str, seed: u64, ours: &[u8], theirs: &[u8], outcome: &mut Outcome) {
    outcome.count(ours == theirs, || {
        let (our_lines, their_lines) = (lines(ours), lines(theirs));
        let place = (0..our_lines.len())
            .find(|&i| our_lines.get(i) != their_lines.get(i))
            .unwrap_or(our_lines.len());
        format!(
            "seed {seed}, {family}, line {place}\n  reference {}\n  program   {}",
            shown(&our_lines, place),
            shown(&their_lines, place)
        )
    });
}

/// Compares the figures of `count` seasons, each fed in two orders. Where no
/// file is refused both orders must give the same.
pub fn compare_seasons(program: &Program, first_seed: u64, count: u64) -> io::Result<Outcome> {
    let mut outcome = Outcome::default();
    for seed in first_seed..first_seed + count {
        let Season { family, files } = season(seed);
        let mut random = Random::new("another order", seed);
        let order = random.shuffled(files.len());
        let shuffled: Vec<Vec<u8>> = order.iter().map(|&i| files[i].clone()).collect();
        let mut answers = Vec::new();
        for files in [files, shuffled] {
            let input = as_blocks(&files, random.once_in(2));
            let ours = answer_season(&input);
            let goes_on = judge(program, input, seed, &mut outcome, |theirs, outcome| {
                compare_listings(family, seed, ours.as_bytes(), theirs, outcome);
                answers.push(theirs.to_vec());
            })?;
            if !goes_on {
                return Ok(outcome);
            }
        }
        if answers.iter().all(|answer| answer.starts_with(b"SE")) {
            outcome.count(answers.first() == answers.last(), || {
                format!("seed {seed}, {family}: the order changes a figure")
            });
        }
    }
    Ok(outcome)
}
