//! Previews: by hand, the order of the refusals, and that what a plan keeps
//! gives the circuits of planning anew.

use reference::generate::cases::{case_file, CAPPED};
use reference::harness::answers::answer;
use reference::harness::case_file::{read_case, write_case};
use reference::harness::case_text::parse_text;
use reference::harness::plan::plan_case;
use reference::harness::preview::{answer_preview, as_input, fills, Kept, EXPAND};
use reference::harness::tables::{Case, MOST_TARGET};
use reference::previews::preview_input;

fn asked(line: &str) -> String {
    answer(line.as_bytes())
}

fn case(name: &str) -> Vec<u8> {
    std::fs::read(format!("../cases/files/{name}.case")).expect("the case is stored")
}

#[test]
fn filled_in_order() {
    for (target, circuits) in [
        (0, "1 5 2"),
        (8, "1 5 2"),
        (9, "1 5 3"),
        (10, "2 5 3"),
        (11, "2 5 4"),
        (12, "3 5 4"),
        (13, "4 5 4"),
        (14, "4 5 4"),
        (65_536, "4 5 4"),
    ] {
        let line = format!("PREV 0 {target} 3 1 5 2 0 0 0 2 0 1");
        assert_eq!(asked(&line), format!("OK {circuits}"));
    }
    assert_eq!(asked("PREV 0 7 0"), "OK");
}

/// The first stops at 2, the second is past its cap and stays, the last goes
/// on to 6.
#[test]
fn filled_to_own_caps() {
    for (target, circuits) in [
        (8, "2 3 3"),
        (9, "2 3 4"),
        (10, "2 3 5"),
        (11, "2 3 6"),
        (65_536, "2 3 6"),
    ] {
        let line = format!("PREV 0 {target} 3 1 3 1 2 1 6 0 1 2");
        assert_eq!(asked(&line), format!("OK {circuits}"));
    }
}

#[test]
fn refusals_in_order() {
    for (line, refusal) in [
        ("PREV 1 65537 1 0 7 9", "RF 2 0"),
        ("PREV 1 65536 2 0 9 0 7 0 0", "RF 18 0"),
        ("PREV 2 0 0", "RF 18 0"),
        ("PREV 0 0 3 64 0 65 6 0 7 0 0 9", "RF 6 1"),
        ("PREV 0 0 3 1 1 65 0 0 0 0 0 9", "RF 6 2"),
        ("PREV 0 0 3 1 1 0 0 7 0 0 0 9", "RF 6 1"),
        ("PREV 0 0 3 1 64 1 0 6 0 0 2 2", "RF 30 2"),
        ("PREV 0 0 3 1 64 1 0 0 0 0 3 0", "RF 30 1"),
        ("PREV 0 0 2 1 1 0 0 4294967 0", "RF 30 0"),
    ] {
        assert_eq!(asked(line), refusal, "{line}");
    }
    let many = format!("PREV 1 0 257{}", " 0".repeat(771));
    assert_eq!(asked(&many), "RF 2 0");
    for line in [
        "PREV 6 0 0",
        "PREV 0 0 1 1 0",
        "PREV 0 0 1 1 0 0 0",
        "PREV 0 0 401",
    ] {
        assert_eq!(asked(line), "??", "{line}");
    }
}

/// Two corridors in a row; both are full at 4.
fn chain(mode: u8) -> Vec<u8> {
    let text = format!(
        "HD {mode} 0 3 2 1 0 1  LV 138  BU 0 0  BU 0 10  BU 0 20  GE 0 1 0 100 20 0.25
         CO 0 1 1 10 1  CO 1 2 2 10 1  LN 0 0.5 0 100 0  LN 0 0.5 0 100 0"
    );
    write_case(&parse_text(&text).expect("a case"))
}

#[test]
fn as_the_program_prints() {
    // 30 MW over one circuit, then 20 MW over two: the first corridor leads.
    let text = answer_preview(&as_input(&chain(EXPAND), &[0, 4, 5, 9, 65_537]));
    let filled = "PV 0\nCO 0 1\nCO 1 2\nPV 4\nCO 0 2\nCO 1 2\nPV 5\nCO 0 2\nCO 1 3\n";
    assert_eq!(
        text,
        format!("{filled}PV 9\nCO 0 4\nCO 1 4\nPV 65537\nRF 2 0\n")
    );
    let other = answer_preview(&as_input(&chain(1), &[4, 65_537]));
    assert_eq!(other, "PV 4\nRF 18 0\nPV 65537\nRF 2 0\n");
    assert_eq!(answer_preview(&as_input(&chain(2), &[])), "");
}

#[test]
fn files_that_have_no_plan() {
    let long = case("Refused13FileTooLong");
    for (file, refusal) in [
        (&long[..], "RF 13 0\n"),
        (&long[..7], "RF 14 0\n"),
        (&[], "RF 14 0\n"),
        (&case("Refused15WrongMark"), "RF 15 6\n"),
        (&case("Refused08CostOverflows"), "RF 8 0\n"),
    ] {
        assert_eq!(answer_preview(&as_input(file, &[3, 65_537])), refusal);
    }
    // Nothing at all is an empty file; bytes that make no whole number are no target.
    assert_eq!(answer_preview(b""), "RF 14 0\n");
    let mut input = as_input(&chain(EXPAND), &[0]);
    input.truncate(input.len() - 1);
    assert_eq!(answer_preview(&input), "");
}

/// What is kept does not depend on the target, and its preview is what
/// planning anew gives.
#[test]
fn kept_counts_give_the_plan_anew() {
    let (mut answered, mut filled) = (0, 0);
    for seed in (0..400).chain(CAPPED..CAPPED + 400) {
        let Ok(case) = read_case(&case_file(seed).bytes) else {
            continue;
        };
        let Ok(kept) = Kept::of(&case) else { continue };
        if !fills(case.mode) {
            assert!(kept.before.iter().chain(&kept.order).all(|&n| n == 0));
            continue;
        }
        let before: usize = kept.before.iter().sum();
        let full = kept.when_full();
        for target in [
            0,
            before,
            before + 1,
            (before + full) / 2,
            full,
            MOST_TARGET,
        ] {
            let target = target.min(MOST_TARGET);
            let anew = Case {
                target: target as u32,
                ..case.clone()
            };
            let Ok(planned) = plan_case(&anew) else {
                continue;
            };
            let circuits: Vec<usize> = planned.plan.circuits.iter().map(|&n| n as usize).collect();
            assert_eq!(kept.preview(target), Ok(circuits), "seed {seed}, {target}");
            assert_eq!(Kept::of(&anew), Ok(kept.clone()));
            answered += 1;
            filled += usize::from(planned.plan.filler_circuits > 0);
        }
    }
    assert!(answered > 1_600 && filled > 800, "{answered} {filled}");
}

#[test]
fn a_seed_gives_the_same_input() {
    for seed in 0..20 {
        assert_eq!(preview_input(seed), preview_input(seed));
    }
}
