//! The comparison itself: it passes a program that answers as the reference
//! does, and no program that answers otherwise, fails, or does not end.

use std::fs;
use std::os::unix::fs::PermissionsExt;
use std::path::PathBuf;
use std::sync::{Mutex, PoisonError};
use std::time::Duration;

use reference::compare::{compare_answers, compare_cases, Outcome, Program};
use reference::generate::cases::case_file;
use reference::harness::listing::answer_list;

/// One script at a time: none is run while another test starts a process that
/// still holds it open for writing.
static ONE: Mutex<()> = Mutex::new(());

/// A program of the given name, as shell commands; `$R` is the reference.
fn script(name: &str, commands: &str) -> PathBuf {
    let path = PathBuf::from(env!("CARGO_TARGET_TMPDIR")).join(name);
    let reference = env!("CARGO_BIN_EXE_reference");
    let text = format!("#!/bin/sh\nR='{reference}'\n{commands}\n");
    fs::write(&path, text).expect("a file is written");
    fs::set_permissions(&path, fs::Permissions::from_mode(0o755)).expect("it may be run");
    path
}

fn answers(name: &str, commands: &str, seconds: u64) -> Outcome {
    let _one = ONE.lock().unwrap_or_else(PoisonError::into_inner);
    let path = script(name, commands);
    let program = Program {
        limit: Duration::from_secs(seconds),
        ..Program::at(path.to_str().expect("a path of text"))
    };
    // Seed 4 leaves out the last line feed.
    compare_answers(&program, "IMP", 1, 4).expect("the program starts")
}

fn listings(name: &str, commands: &str) -> Outcome {
    let _one = ONE.lock().unwrap_or_else(PoisonError::into_inner);
    let path = script(name, commands);
    let program = Program::at(path.to_str().expect("a path of text"));
    compare_cases(&program, ("list", case_file, answer_list), 0, 3).expect("the program starts")
}

#[test]
fn the_reference_is_equal_to_itself() {
    let outcome = answers("equal", "exec $R answers", 60);
    assert_eq!(outcome.differences, 0);
    assert!(outcome.compared > 1_000);
    let counted = outcome.tally.to_string();
    assert!(counted.contains(&format!("{:>10}  compared: IMP", outcome.compared)));
    assert_eq!(listings("equal-list", "exec $R list").differences, 0);
}

#[test]
fn another_answer_is_a_difference() {
    let changed = answers("changed", "$R answers | sed '2s/OK/RF/;2s/RF 12/OK/'", 60);
    assert_eq!(changed.differences, 4);
    let longer = answers("longer", "$R answers; echo OK", 60);
    assert_eq!(longer.differences, 4);
    let shorter = answers("shorter", "$R answers | sed '$d'", 60);
    assert_eq!(shorter.differences, 4);
    let unended = answers("unended", "printf %s \"$($R answers)\"", 60);
    assert_eq!(unended.differences, 4);
    assert_eq!(listings("longer-list", "$R list; echo RF").differences, 3);
}

#[test]
fn a_bad_status_is_a_difference() {
    assert_eq!(answers("status", "$R answers; exit 3", 60).differences, 4);
    let killed = answers("killed", "$R answers; kill -SEGV $$", 60);
    assert_eq!(killed.differences, 4);
    assert_eq!(listings("status-list", "$R list; exit 3").differences, 3);
}

#[test]
fn a_program_that_does_not_end_is_stopped() {
    // With its output open, and closed; one is enough to end the comparison.
    let open = answers("open", "$R answers; exec sleep 600", 2);
    assert_eq!((open.compared, open.differences), (1, 1));
    let closed = answers("closed", "$R answers; exec sleep 600 >&-", 2);
    assert_eq!((closed.compared, closed.differences), (1, 1));
}
