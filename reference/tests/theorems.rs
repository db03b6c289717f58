//! A case as text, and its theorem.

use reference::generate::cases::{case_file, CAPPED, WEIGHED};
use reference::harness::case_file::{read_case, write_case};
use reference::harness::case_text::{parse_text, print_text};
use reference::theorem::theorem;

const CASE_L: &str = "HD 2 0 2 1 1 0 1\nLV 138\nBU 0 0\nBU 0 50\nGE 0 1 0 100 20 0.25\n\
    CO 0 1 1 10 1\nLN 0 0.5 0 100 0\n";

/// Figures that are NaN have no decimal, so what they were is not kept.
fn without_nan(text: &str) -> bool {
    !text.contains("NaN")
}

#[test]
fn text_is_read_back_as_the_same_case() {
    let mut read = 0;
    let ranges = [0, CAPPED, WEIGHED];
    for seed in ranges.into_iter().flat_map(|first| first..first + 400) {
        let Ok(case) = read_case(&case_file(seed).bytes) else {
            continue;
        };
        let text = print_text(&case);
        if without_nan(&text) {
            let again = parse_text(&text).expect("it is a case");
            assert_eq!(write_case(&again), write_case(&case), "seed {seed}");
            read += 1;
        }
    }
    assert!(read > 700);
}

#[test]
fn other_text_is_no_case() {
    let other = [
        CASE_L.replace("LV 138\n", ""),
        CASE_L.replace("BU 0 50", "BU 0"),
        CASE_L.replace("BU 0 50", "GE 0 50"),
        CASE_L.replace("BU 0 50", "BV 0 50"),
        CASE_L.replace("BU 0 50", "BU 0 50 1"),
        CASE_L.replace("CO 0 1 1 10 1", "CP 0 1 1 10 1"),
        CASE_L.replace("CO 0 1 1 10 1", "CO 0 1 1 10 1 3"),
        CASE_L.replace("0.25", "a quarter"),
        format!("{CASE_L}LN 0 0.5 0 100 0\n"),
        String::new(),
    ];
    for text in other {
        assert_eq!(parse_text(&text), None, "{text}");
    }
}

#[test]
fn theorem_of_case_l_has_its_listing() {
    let case = parse_text(CASE_L).expect("it is a case");
    let theorem = theorem(&write_case(&case)).expect("there is a case");
    let statement = "pub listed :
    listing_of given 0
    ≡ (2 ∷ 0 ∷ 1 ∷ 0 ∷ 0 ∷ 0 ∷ 0 ∷ 0 ∷ 0 ∷ 0 ∷ [])
    ∷ []
    ∷ (0 ∷ [])
    ∷ (0 ∷ 0 ∷ [])
    ∷ (0 ∷ 0xBFD0_0000_0000_0000 ∷ [])
    ∷ (0x4049_0000_0000_0000 ∷ [])
    ∷ (1 ∷ [])
    ∷ (0x4049_0000_0000_0000 ∷ [])
    ∷ (0x4059_0000_0000_0000 ∷ [])
    ∷ (0x3FE0_0000_0000_0000 ∷ 0x3FD0_0000_0000_0000 ∷ [])
    ∷ []
unfolding whole_plan
listed = refl
";
    assert!(theorem.ends_with(statement), "{theorem}");
}

#[test]
fn refusals_of_the_planner_have_theorems() {
    let row = CASE_L.replace("0.5", "0");
    let theorem = theorem(&write_case(&parse_text(&row).expect("it is a case")));
    let theorem = theorem.expect("there is a case");
    assert!(
        theorem.contains("    ≡ (7 ∷ 0 ∷ [])\n    ∷ []\n"),
        "{theorem}"
    );
}

#[test]
fn files_refused_in_reading_have_none() {
    let file = write_case(&parse_text(CASE_L).expect("it is a case"));
    assert_eq!(theorem(&file[..file.len() - 1]), None);
}
