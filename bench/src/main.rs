//! The port against the reference build on the same inputs, from one driver in one run. Both sides are called in turn,
//! the results are compared bit for bit, line sheets judged, and the least time of many runs of each gives the ratio. A
//! ratio below 1 says that the port is faster.
//!
//!     bench [PART..]         the table, or parts of it: angles, operations, reading, sheet, previews, listing
//!     bench --once [PART..]  the same with one run of each, for what it compares: its times say nothing
//!     bench --case           writes the case file of the listing '256 buses' to standard output, for bench/instructions

mod angles;
mod cases;
mod draws;
mod operations;
mod ports;
mod previews;
mod process;
mod programs;
mod reading;
mod sheet;

use std::time::{Duration, Instant};

/// Whether each side is to be run once.
fn once() -> bool {
    std::env::args().any(|word| word == "--once")
}

/// The least of `runs` measures of each of two sides, taken in turn.
fn least_by(
    runs: usize,
    mut port: impl FnMut() -> Duration,
    mut rust: impl FnMut() -> Duration,
) -> (Duration, Duration) {
    let mut best = (Duration::MAX, Duration::MAX);
    for _ in 0..if once() { 1 } else { runs } {
        best.0 = best.0.min(port());
        best.1 = best.1.min(rust());
    }
    best
}

/// The least time of `runs` runs of each of two functions, called in turn.
fn least(runs: usize, mut port: impl FnMut(), mut rust: impl FnMut()) -> (Duration, Duration) {
    least_by(runs, || time(&mut port), || time(&mut rust))
}

/// From start to end; where that is more than a millisecond, in which others may have had the processor, the processor time.
fn time(work: &mut impl FnMut()) -> Duration {
    let before = process::own_time();
    let start = Instant::now();
    work();
    let passed = start.elapsed();
    if passed < Duration::from_millis(1) {
        passed
    } else {
        process::own_time() - before
    }
}

/// One line of the table.
fn report(what: &str, note: &str, times: (Duration, Duration)) {
    let (port, rust) = (times.0.as_nanos() as f64, times.1.as_nanos() as f64);
    println!(
        "{what:<54} {note:>11} {:>12.1} {:>12.1} {:>8.2}",
        port / 1000.0,
        rust / 1000.0,
        port / rust
    );
}

fn main() {
    if std::env::args().any(|word| word == "--case") {
        return programs::write_feeder();
    }
    println!(
        "{:<54} {:>11} {:>12} {:>12} {:>8}",
        "case", "", "port, us", "Rust, us", "ratio"
    );
    let parts: [(&str, fn()); 6] = [
        ("angles", angles::run),
        ("operations", operations::run),
        ("reading", reading::run),
        ("sheet", sheet::run),
        ("previews", previews::run),
        ("listing", programs::run),
    ];
    let words: Vec<String> = std::env::args().skip(1).collect();
    let all = words.iter().all(|word| word == "--once");
    for (name, run) in parts {
        if all || words.iter().any(|word| word == name) {
            run();
        }
    }
}
