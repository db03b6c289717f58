//! Document 02, K4: what idle units serve of the demand that a dispatch leaves.

use reference::electrical::planning::economic_dispatch;
use reference::generate::cases::{case_file, serving_file};
use reference::harness::case_file::{read_case, write_case};
use reference::harness::case_text::parse_text;
use reference::harness::listing::answer_list;
use reference::harness::plan::plan_case;
use reference::harness::serving::serve_unmet;
use reference::harness::tables::{Case, MOST_MODE, SERVING};

/// MW of units `(pmax, c1)` that begin at 0 and whose costs do not rise.
fn served(units: &[(f64, f64)], demand: f64) -> Vec<f64> {
    let units: Vec<_> = units.iter().map(|&(p, c)| (0.0, p, c, 0.0)).collect();
    let mut out = economic_dispatch(&units, demand);
    serve_unmet(&units, demand, &mut out);
    out
}

#[test]
fn the_second_example_is_served() {
    assert_eq!(economic_dispatch(&[(0.0, 100.0, 10.0, 0.0)], 50.0), [0.0]);
    assert_eq!(served(&[(100.0, 10.0)], 50.0), [50.0]);
}

#[test]
fn by_cost_then_index_each_up_to_its_most() {
    assert_eq!(served(&[(50.0, 20.0), (100.0, 20.0)], 30.0), [30.0, 0.0]);
    assert_eq!(served(&[(50.0, 20.0), (100.0, 20.0)], 90.0), [50.0, 40.0]);
    let three = [(50.0, 20.0), (60.0, 10.0), (100.0, 20.0)];
    assert_eq!(served(&three, 100.0), [40.0, 60.0, 0.0]);
    assert_eq!(served(&three, 150.0), [50.0, 60.0, 40.0]);
    let near = [(100.0, 20.0), (100.0, 20.0 - 1e-10), (100.0, 20.0 - 5e-11)];
    assert_eq!(served(&near, 210.0), [10.0, 100.0, 100.0]);
}

#[test]
fn nothing_to_serve() {
    assert_eq!(served(&[(30.0, 20.0), (100.0, 10.0)], 200.0), [30.0, 100.0]);
    assert_eq!(served(&[(30.0, 20.0), (100.0, 10.0)], 0.0), [0.0, 0.0]);
    assert_eq!(served(&[(30.0, 20.0), (100.0, 10.0)], 100.0), [0.0, 100.0]);
    assert_eq!(served(&[], 7.0), []);
}

/// The unit left below its most is the last, whatever rounding leaves.
#[test]
fn the_first_left_below_its_most_ends_it() {
    let small = f64::from_bits(0x3CE8_0000_0000_0000);
    let units = [(100.0, 20.0), (small, 10.0), (small, 10.0), (100.0, 20.0)];
    assert_eq!(
        served(&units, 50.0),
        [50.0_f64.next_down(), small, small, 0.0]
    );
}

fn case(mode: u8) -> Case {
    let text = format!(
        "HD {mode} 4 2 1 1 0 1  LV 138  BU 0 0  BU 0 50  GE 0 1 0 100 20 0  CO 0 1 1 10 1  LN 0 0.5 0 100 0"
    );
    parse_text(&text).expect("a case")
}

#[test]
fn modes_are_listed_as_such() {
    for mode in 0..=MOST_MODE {
        let listing = answer_list(&write_case(&case(mode)));
        assert!(listing.starts_with(&format!("PL {mode} ")), "{listing}");
        let planned = plan_case(&case(mode)).expect("it is answered").plan;
        let mw = if mode < SERVING { 0.0 } else { 50.0 };
        assert_eq!(planned.dispatch, [mw]);
        let filled = if mode % SERVING == 0 { 4 } else { 1 };
        assert_eq!(planned.circuits, [filled]);
    }
    let mut file = write_case(&case(0));
    file[2] = MOST_MODE + 1;
    assert_eq!(answer_list(&file), "RF 16 0\n");
}

/// Where the dispatch leaves nothing, a plan is that of the mode three lower.
#[test]
fn a_met_demand_is_planned_as_before() {
    let (mut equal, mut other) = (0, 0);
    for seed in 0..400 {
        let Ok(mut case) = read_case(&case_file(seed).bytes) else {
            continue;
        };
        if case.mode >= SERVING {
            continue;
        }
        let before = answer_list(&write_case(&case));
        case.mode += SERVING;
        let serving = answer_list(&write_case(&case)).replacen(
            &format!("PL {} ", case.mode),
            &format!("PL {} ", case.mode - SERVING),
            1,
        );
        match serving == before {
            true => equal += 1,
            false => other += 1,
        }
    }
    assert!(equal > 200 && other > 0, "{equal} {other}");
}

#[test]
fn seeded_cases_are_in_modes_3_to_5() {
    for seed in 0..200 {
        let case = read_case(&serving_file(seed).bytes).expect("a case");
        assert!((SERVING..=MOST_MODE).contains(&case.mode));
        assert_eq!(serving_file(seed).bytes, serving_file(seed).bytes);
    }
}
