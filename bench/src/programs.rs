//! The listing program against the reference build's, on the same case files: the processor time of a run from start to
//! end, and without what a run on an empty file costs. The listings are compared byte for byte.

use std::io::Write;
use std::time::Duration;

use reference::harness::case_file::write_case;
use reference::harness::listing::answer_list;
use reference::watch::{self, Branch};

use crate::cases::{
    draft, hopeless, Shape, EXPAND_SERVING, FEEDER, OBSERVE, OBSERVE_SERVING, REINFORCE,
    REINFORCE_SERVING,
};
use crate::process::{most_kilobytes, run_program};
use crate::{least_by, report};

const PORT: &[&str] = &["target/bin/listing"];
const RUST: &[&str] = &["reference/target/release/reference", "list"];

/// What a program prints of a case file.
fn listing(words: &[&str], file: &[u8]) -> Vec<u8> {
    run_program(words, file).0
}

fn compare(
    what: &str,
    file: &[u8],
    runs: usize,
    start_up: (Duration, Duration),
) -> (Duration, Duration) {
    let ours = listing(PORT, file);
    assert_eq!(ours, listing(RUST, file), "{what}: the listings differ");
    let times = least_by(
        runs,
        || run_program(PORT, file).1,
        || run_program(RUST, file).1,
    );
    let note = format!("{} lines", ours.iter().filter(|&&c| c == b'\n').count());
    report(&format!("listing, {what}"), &note, times);
    if start_up.0 > Duration::ZERO {
        let apart = (
            times.0.saturating_sub(start_up.0),
            times.1.saturating_sub(start_up.1),
        );
        report(&format!("listing, {what}, start-up apart"), "", apart);
    }
    times
}

/// What the plan of a listing did, by the places of its first line.
const CAPACITY: usize = 4;
const STIFFENING: usize = 5;
const FILLER: usize = 6;
const PROMOTED: usize = 7;

/// The first line of a listing has more than zero at each of these places: the case is what its name says.
fn does(file: &[u8], what: &str, places: &[usize]) {
    let listing = listing(PORT, file);
    let line = listing.split(|&c| c == b'\n').next().unwrap_or_default();
    let line = String::from_utf8_lossy(line).into_owned();
    let fields: Vec<&str> = line.split(' ').collect();
    assert_eq!(fields[0], "PL", "{what}: {line}");
    for &place in places {
        assert_ne!(fields[place], "0", "{what}: {line}");
    }
}

/// Every solve of this case spends its steps.
fn spends_all_steps(file: &[u8]) {
    let (_, taken) = watch::apart(|| answer_list(file));
    let settled = taken[Branch::AnglesSettledLater as usize];
    let steps_spent = taken[Branch::AnglesSpent as usize];
    assert!(
        settled == 0 && steps_spent > 0,
        "{settled} settled, {steps_spent} spent"
    );
}

/// What a plan may do, one draft each: its name, its shape, what its listing must say that it did, and runs.
fn drafts() -> Vec<(&'static str, Shape, Vec<usize>, usize)> {
    const FIVE: &[f64] = &[765.0, 345.0, 230.0, 138.0, 69.0];
    let with = |change: fn(&mut Shape)| {
        let mut shape = FEEDER;
        change(&mut shape);
        shape
    };
    vec![
        (
            "64 buses",
            with(|s| (s.buses, s.corridors) = (64, 79)),
            vec![],
            200,
        ),
        ("128 buses, a mesh", with(|s| s.buses = 128), vec![], 200),
        (
            "256 buses, eight islands",
            with(|s| s.islands = 8),
            vec![],
            200,
        ),
        (
            "256 buses, Observe",
            with(|s| s.mode = OBSERVE),
            vec![],
            200,
        ),
        (
            "256 buses, Reinforce",
            with(|s| (s.mode, s.load) = (REINFORCE, 40.0)),
            vec![CAPACITY],
            100,
        ),
        (
            "256 buses, ObserveServing",
            with(|s| s.mode = OBSERVE_SERVING),
            vec![],
            100,
        ),
        (
            "256 buses, ReinforceServing",
            with(|s| (s.mode, s.load) = (REINFORCE_SERVING, 40.0)),
            vec![CAPACITY],
            100,
        ),
        (
            "256 buses, ExpandServing",
            with(|s| s.mode = EXPAND_SERVING),
            vec![STIFFENING, PROMOTED],
            100,
        ),
        ("256 buses", FEEDER, vec![STIFFENING, PROMOTED], 100),
        (
            "256 buses, filled to 600",
            with(|s| s.target = 600),
            vec![STIFFENING, FILLER, PROMOTED],
            100,
        ),
        (
            "256 buses, five levels",
            with(|s| (s.ladder, s.load) = (FIVE, 100.0)),
            vec![CAPACITY, STIFFENING, PROMOTED],
            40,
        ),
    ]
}

/// The most memory that each program takes for a case, as the system counts it, in KB.
fn memory(what: &str, file: &[u8]) {
    let (port, rust) = (most_kilobytes(PORT, file), most_kilobytes(RUST, file));
    println!(
        "{:<54} {:>11} {port:>12} {rust:>12} {:>8.2}",
        format!("memory of the listing, KB, {what}"),
        "",
        port as f64 / rust as f64
    );
}

/// The case file of the listing '256 buses', to standard output.
pub fn write_feeder() {
    std::io::stdout()
        .write_all(&write_case(&draft(FEEDER)))
        .expect("the file is written");
}

pub fn run() {
    let none = (Duration::ZERO, Duration::ZERO);
    let start_up = compare("an empty file (start-up)", &[], 4_000, none);
    let small = std::fs::read("cases/files/CaseL.case").expect("case L is stored");
    compare("a small case", &small, 4_000, start_up);
    for (what, shape, did, runs) in drafts() {
        let file = write_case(&draft(shape));
        does(&file, what, &did);
        compare(what, &file, runs, start_up);
    }
    let mut tree = FEEDER;
    tree.corridors = tree.buses - 1;
    let spent = write_case(&hopeless(tree));
    spends_all_steps(&spent);
    compare("256 buses, all steps spent", &spent, 20, start_up);
    memory("256 buses", &write_case(&draft(FEEDER)));
}
