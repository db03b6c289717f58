//! reference/store-samples with a reference build and a program `answers` that
//! are small scripts: where one of them fails nothing more is written, and no
//! answer before it is judged.

use std::fs;
use std::os::unix::fs::PermissionsExt;
use std::path::{Path, PathBuf};
use std::process::Command;

/// A reference build that prints its words, and judges as `$1` says.
const REFERENCE: &str = "#!/bin/sh
case $1 in
    judge) JUDGE ;;
    write | join | list | preview) cat >/dev/null && echo \"$*\" ;;
    *) echo \"$*\" ;;
esac
";

fn program(path: &Path, text: &str) {
    fs::create_dir_all(path.parent().expect("a folder")).expect("a folder is made");
    fs::write(path, text).expect("a file is written");
    fs::set_permissions(path, fs::Permissions::from_mode(0o755)).expect("it may be run");
}

/// A repository of its own in the folder `name`, where `old` stands in every
/// sample that is looked at.
fn repository(name: &str, judge: &str, answers: &str) -> PathBuf {
    let root = PathBuf::from(env!("CARGO_TARGET_TMPDIR")).join(name);
    let _ = fs::remove_dir_all(&root);
    let script = include_str!("../store-samples");
    program(&root.join("reference/store-samples"), script);
    let reference = REFERENCE.replace("JUDGE", judge);
    program(&root.join("reference/target/release/reference"), &reference);
    program(&root.join("target/bin/answers"), answers);
    for folder in [
        "crates/answers",
        "crates/listing",
        "crates/previews",
        "cases/files",
        "cases/sample",
        "cases/serving",
        "cases/capped",
        "cases/weighed",
        "cases/small",
    ] {
        fs::create_dir_all(root.join(folder)).expect("a folder is made");
    }
    for file in SAMPLES {
        fs::write(root.join(file), "old\n").expect("a file is written");
    }
    for file in [
        "cases/files/DistrictNorth.case",
        "cases/files/DistrictSouth.case",
    ] {
        fs::write(root.join(file), "a district\n").expect("a file is written");
    }
    fs::write(root.join("cases/files/One.txt"), "a case\n").expect("a file is written");
    root
}

/// In the order in which they are made, but for the first two, which are
/// written together.
const SAMPLES: [&str; 4] = [
    "crates/answers/stdin",
    "crates/answers/stdout",
    "cases/files/One.case",
    "crates/listing/stdin",
];

/// The status, and which samples are no longer `old`.
fn run(root: &Path, words: &[&str]) -> (Option<i32>, Vec<&'static str>) {
    let mut command = Command::new(root.join("reference/store-samples"));
    let ended = command.args(words).output().expect("the script runs");
    let is_new = |file: &&str| fs::read_to_string(root.join(file)).expect("it is there") != "old\n";
    (
        ended.status.code(),
        SAMPLES.into_iter().filter(is_new).collect(),
    )
}

const SAY: &str = "#!/bin/sh\nexec sed 's/^/to /'\n";

/// A check says that the judge fails, writes nothing and goes on.
#[test]
fn samples_are_written_where_all_is_well() {
    let root = repository("stored", "grep -q '^to ' \"$3\"", SAY);
    assert_eq!(run(&root, &[]), (Some(0), SAMPLES[..3].to_vec()));
    for file in SAMPLES {
        fs::write(root.join(file), "old\n").expect("a file is written");
    }
    assert_eq!(run(&root, &["--check"]), (Some(1), vec![]));
}

#[test]
fn nothing_more_is_written_where_the_judge_fails() {
    for (name, judge) in [("wrong", "exit 1"), ("crashed", "kill -SEGV $$")] {
        let root = repository(name, judge, SAY);
        assert_eq!(run(&root, &[]), (Some(1), vec![]), "{name}");
    }
}

#[test]
fn nothing_is_written_where_the_program_fails() {
    let root = repository("failed", "exit 0", "#!/bin/sh\ncat\nexit 3\n");
    assert_eq!(run(&root, &[]), (Some(1), vec![]));
}
