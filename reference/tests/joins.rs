//! Two districts joined: by hand, and the form of the file.

use reference::generate::cases::pairs::{pair, pair_names};
use reference::harness::case_file::{read_case, write_case, MOST_BYTES};
use reference::harness::case_text::parse_text;
use reference::harness::join::{answer_join, files_of, join_files, Refused, Step};
use reference::harness::listing::answer_list;

fn file(text: &str) -> Vec<u8> {
    write_case(&parse_text(text).expect("a case"))
}

/// Two levels, the lower one requested; two buses, a unit, a corridor.
const WEST: &str = "HD 0 3 2 1 1 1 1  LV 230 LV 138  BU 0 0 BU 0 50  GE 0 1 0 100 20 0.25
    CO 0 1 1 10 1  LN 0 0.25 0 400 0  LN 0 0.5 0 100 0";

/// The same levels; three buses in two islands.
const EAST: &str = "HD 0 4 3 1 2 1 1  LV 230 LV 138  BV 0 40 0.5 BV 0 0 2 BV 0 8 1
    GE 1 1 0 60 15 0.5  GE 2 1 0 9 1 1  CP 1 0 2 20 1 3  LN 0 0.5 0 300 1  LN 0.125 1 0 80 0";

const BOTH: &str =
    "HD 0 7 5 2 3 1 1  LV 230 LV 138  BV 0 0 1 BV 0 50 1 BV 0 40 0.5 BV 0 0 2 BV 0 8 1
    GE 0 1 0 100 20 0.25  GE 3 1 0 60 15 0.5  GE 4 1 0 9 1 1  CO 0 1 1 10 1  CP 3 2 2 20 1 3
    LN 0 0.25 0 400 0  LN 0 0.5 0 100 0  LN 0 0.5 0 300 1  LN 0.125 1 0 80 0";

fn joined(first: &[u8], second: &[u8]) -> Vec<u8> {
    write_case(&join_files(first, second).expect("they are joined"))
}

fn refused(first: &[u8], second: &[u8]) -> (Step, u32, usize) {
    let Refused { step, refusal } = join_files(first, second).expect_err("they are refused");
    (step, refusal.number, refusal.index)
}

#[test]
fn the_second_follows_the_first() {
    assert_eq!(joined(&file(WEST), &file(EAST)), file(BOTH));
}

#[test]
fn generators_and_grounds_are_those_apart() {
    let lines = |text: &str, mark: &str| {
        let listing = answer_list(&file(text));
        let lines = listing.lines().filter(|line| line.starts_with(mark));
        lines.map(str::to_owned).collect::<Vec<String>>()
    };
    assert_eq!(lines(WEST, "GR"), ["GR 0"]);
    assert_eq!(lines(EAST, "GR"), ["GR 1", "GR 2"]);
    assert_eq!(lines(BOTH, "GR"), ["GR 0", "GR 3", "GR 4"]);
    let mw = |text, place: usize| {
        lines(text, "GE")[place]
            .split(' ')
            .next_back()
            .map(str::to_owned)
    };
    let apart = [mw(WEST, 0), mw(EAST, 0), mw(EAST, 1)];
    assert_eq!(apart, [mw(BOTH, 0), mw(BOTH, 1), mw(BOTH, 2)]);
}

/// All weights 1 are written as BU, and a cap of 0 as CO, whatever was read.
#[test]
fn the_form_goes_by_weights_and_caps() {
    let plain = "HD 2 0 2 1 0 0 1  LV 138  BU 0 0 BU 0 1  CO 0 1 1 10 1  LN 0 0.5 0 100 0";
    let marked = "HD 2 0 2 1 0 0 1  LV 138  BV 0 0 1 BV 0 1 1  CP 0 1 1 10 1 0  LN 0 0.5 0 100 0";
    let twice = "HD 2 0 4 2 0 0 1  LV 138  BU 0 0 BU 0 1 BU 0 0 BU 0 1
        CO 0 1 1 10 1 CO 2 3 1 10 1  LN 0 0.5 0 100 0 LN 0 0.5 0 100 0";
    for first in [plain, marked] {
        for second in [plain, marked] {
            assert_eq!(joined(&file(first), &file(second)), file(twice));
        }
    }
}

#[test]
fn nothing_joined_is_the_other() {
    let none = file("HD 0 0 0 0 0 1 1  LV 230 LV 138");
    for case in [WEST, EAST, "HD 0 9 0 0 0 1 1  LV 230 LV 138"] {
        assert_eq!(joined(&file(case), &none), file(case));
        assert_eq!(joined(&none, &file(case)), file(case));
    }
}

#[test]
fn refusals_in_order() {
    let (west, east) = (file(WEST), file(EAST));
    let faulty = file(&WEST.replace("BU 0 50", "BU 1 50"));
    let late = file(&EAST.replace("GE 2 1", "GE 3 1"));
    let mode = file(&EAST.replace("HD 0", "HD 3"));
    let kv = file(&EAST.replace("LV 138", "LV 137.5"));
    let more = file(&EAST.replace("HD 0 4", "HD 0 65534"));
    let cut = &west[..west.len() - 1];
    // Reading comes before 3 to 7 of either, and the first before the second.
    assert_eq!(refused(cut, &[]), (Step::ReadFirst, 14, 8));
    assert_eq!(refused(&faulty, cut), (Step::ReadSecond, 14, 8));
    assert_eq!(refused(&faulty, &late), (Step::First, 4, 1));
    assert_eq!(refused(&west, &late), (Step::Second, 5, 1));
    // 2 before 24.
    assert_eq!(refused(&west, &more), (Step::Sum, 2, 0));
    assert_eq!(refused(&mode, &more), (Step::Sum, 2, 0));
    assert_eq!(refused(&mode, &east), (Step::Unlike, 24, 0));
    assert_eq!(refused(&west, &mode), (Step::Unlike, 24, 0));
    assert_eq!(refused(&west, &kv), (Step::Unlike, 24, 0));
    let levels = "HD 0 0 0 0 0 2 1  LV 230 LV 138 LV 69";
    assert_eq!(refused(&west, &file(levels)), (Step::Unlike, 24, 0));
    let requested = "HD 0 0 0 0 0 0 2  LV 230 LV 138";
    assert_eq!(refused(&file(requested), &west), (Step::Unlike, 24, 0));
}

#[test]
fn the_input_is_the_first_padded_and_the_second() {
    let mut input = file(WEST);
    input.resize(MOST_BYTES, 0);
    assert_eq!(answer_join(&input), b"RF 14 0\n");
    input.extend(file(EAST));
    assert_eq!(answer_join(&input), file(BOTH));
    // Zeros may follow the second too, up to the most that a file may have.
    input.resize(2 * MOST_BYTES, 0);
    assert_eq!(answer_join(&input), file(BOTH));
    input.push(0);
    assert_eq!(answer_join(&input), b"RF 13 0\n");
    assert_eq!(answer_join(&[]), b"RF 14 0\n");
}

#[test]
fn what_is_joined_can_be_read() {
    let mut answered = 0;
    for seed in 0..20 * pair_names().count() as u64 {
        let input = pair(seed).input();
        let (first, second) = files_of(&input);
        if let Ok(case) = join_files(first, second) {
            assert_eq!(
                read_case(&write_case(&case)).as_ref(),
                Ok(&case),
                "seed {seed}"
            );
            answered += 1;
        }
    }
    assert!(answered > 100);
}
