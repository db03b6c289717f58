//! Seasons of plans: fractions, the figures of a few plans, and the order of
//! the refusals.

use reference::generate::seasons::{as_blocks, season};
use reference::harness::case_file::MOST_BYTES;
use reference::harness::season::{answer_season, lowest, MOST_PLANS};

fn case(name: &str) -> Vec<u8> {
    std::fs::read(format!("../cases/files/{name}.case")).expect("the case is stored")
}

fn figures(names: &[&str]) -> String {
    let files: Vec<Vec<u8>> = names.iter().map(|name| case(name)).collect();
    answer_season(&as_blocks(&files, false))
}

#[test]
fn lowest_terms() {
    for (over, under, terms) in [
        (0, 0, (0, 1)),
        (7, 0, (0, 1)),
        (0, 9, (0, 1)),
        (6, 4, (3, 2)),
        (4096, 4096, (1, 1)),
        (262_143, 4095, (4161, 65)),
    ] {
        assert_eq!(lowest(over, under), terms);
    }
}

#[test]
fn none_and_one() {
    assert_eq!(figures(&[]), "SE 0\nRO 0 1\nCV 0 1\n");
    assert_eq!(figures(&["CaseL"]), "SE 1\nCO 0 1 1 1 1\nRO 0 1\nCV 1 1\n");
}

#[test]
fn a_refused_file_costs_the_others_nothing() {
    let taken = figures(&["CaseL", "Tally11Nine", "NeedByOneDivision"]);
    let all = figures(&[
        "CaseL",
        "Refused15WrongMark",
        "Tally11Nine",
        "Refused03LadderOutOfOrder",
        "BankByOneDivision",
        "NeedByOneDivision",
    ]);
    assert_eq!(all, format!("RF 1 15 6\nRF 3 3 1\nRF 4 19 0\n{taken}"));
}

#[test]
fn a_full_season_is_20_and_another_count_19_before() {
    let mut files = vec![case("CaseL"); MOST_PLANS + 1];
    files.push(case("BankByOneDivision"));
    let input = as_blocks(&files, true);
    assert_eq!(
        answer_season(&input),
        "RF 4096 20 0\nRF 4097 19 0\nSE 4096\nCO 0 1 1 1 1\nRO 0 1\nCV 1 1\n"
    );
}

#[test]
fn blocks() {
    let files = season(2).files;
    let last = files.last().expect("the season has files").len();
    let whole = as_blocks(&files, false);
    assert_eq!(whole.len(), files.len() * MOST_BYTES);
    let short = as_blocks(&files, true);
    assert_eq!(short.len(), (files.len() - 1) * MOST_BYTES + last);
    assert!(whole.starts_with(&short));
}

#[test]
fn what_the_seeds_reach() {
    let (mut uneven, mut unread, mut unplanned, mut whole, mut all_alike) = (0, 0, 0, 0, 0);
    for seed in 0..60 {
        let answer = answer_season(&as_blocks(&season(seed).files, false));
        let refused = |numbers: std::ops::RangeInclusive<u32>| {
            let number = |line: &str| line.split(' ').nth(2).and_then(|n| n.parse().ok());
            let refusals = answer.lines().filter(|line| line.starts_with("RF"));
            refusals.filter_map(number).any(|n| numbers.contains(&n))
        };
        uneven += usize::from(refused(19..=19));
        unread += usize::from(refused(13..=17));
        unplanned += usize::from(refused(3..=9));
        whole += usize::from(answer.starts_with("SE") && !answer.starts_with("SE 0"));
        all_alike += usize::from(answer.ends_with("CV 1 1\n"));
    }
    for met in [uneven, unread, unplanned, whole, 60 - all_alike] {
        assert!(
            met >= 5,
            "{uneven} {unread} {unplanned} {whole} {all_alike}"
        );
    }
}
