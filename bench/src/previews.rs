//! A preview of a filling: against the reference build's preview, and beside planning the case anew, which it saves. The port
//! is asked by the program `answers`, so that its time has the request's text and the answer's in it.

use std::fmt::Write;
use std::time::Duration;

use reference::harness::answers::answer_all;
use reference::harness::preview::{Kept, FULL};

use crate::cases::{draft, FEEDER};
use crate::process::run_program;
use crate::{least_by, report, time};

const PORT: &[&str] = &["target/bin/answers"];

/// How many requests stand in one input: so few that a pipe holds their answers, since the input is written before they are read.
const REQUESTS: u32 = 100;

/// A line for each request: the totals go from nothing to fill to all corridors full, one after another.
fn requests(kept: &Kept) -> Vec<u8> {
    let numbers = |list: &[usize]| list.iter().fold(String::new(), |text, n| text + &format!(" {n}"));
    let corridors = kept.before.len();
    let (before, cap, order) = (numbers(&kept.before), numbers(&kept.cap), numbers(&kept.order));
    let mut text = String::new();
    for k in 0..REQUESTS as usize {
        let target = k * (FULL * corridors) / (REQUESTS as usize - 1);
        writeln!(text, "PREV {} {target} {corridors}{before}{cap}{order}", kept.mode).expect("text grows");
    }
    text.into_bytes()
}

pub fn run() {
    let case = draft(FEEDER);
    let kept = Kept::of(&case).expect("the draft has a plan");
    let requests = requests(&kept);
    let ours = run_program(PORT, &requests).0;
    assert!(ours.starts_with(b"OK "), "a preview is refused");
    assert_eq!(ours, answer_all(&requests).into_bytes(), "the previews differ");
    let start_up = least_by(100, || run_program(PORT, &[]).1, || Duration::ZERO).0;
    let times = least_by(
        50,
        || run_program(PORT, &requests).1.saturating_sub(start_up),
        || time(&mut || drop(answer_all(&requests))),
    );
    let each = (times.0 / REQUESTS, times.1 / REQUESTS);
    let note = format!("{} corridors", kept.before.len());
    report("preview, request and answer as text", &note, each);
    let anew = least_by(50, || Duration::ZERO, || time(&mut || drop(Kept::of(&case)))).1;
    report("preview, beside planning anew (Rust)", &note, (each.0, anew));
}
