//! Document 01's tally of worked examples, and its case L.

use reference::harness::case_file::write_case;
use reference::harness::listing::answer_list;
use reference::harness::operations::{
    accepted_leaders, angles, dispatch, impedance, placement, square_root, Network, Support,
};
use reference::harness::plan::{plan_case, Planned};
use reference::harness::refusal::Refusal;
use reference::harness::tables::{Bus, Case, CorridorRecord, Generator, Line};

const EXPAND: u8 = 0;
const REINFORCE: u8 = 1;

/// Case L: HD 2, 0, 2, 1, 1, 0, 1 and its records.
fn case_l() -> Case {
    Case {
        mode: 2,
        target: 0,
        above: 0,
        ladder: vec![138.0],
        buses: vec![Bus::plain(0, 0.0), Bus::plain(0, 50.0)],
        generators: vec![Generator {
            bus: 0,
            slack: 1,
            pmin: 0.0,
            pmax: 100.0,
            c1: 20.0,
            c2: 0.25,
        }],
        corridors: vec![CorridorRecord {
            a: 0,
            b: 1,
            circuits: 1,
            length: 10.0,
            share: 1.0,
            ..CorridorRecord::default()
        }],
        sheet: vec![Line {
            r: 0.0,
            x: 0.5,
            b: 0.0,
            rate: 100.0,
            basis: 0,
        }],
    }
}

fn planned(case: &Case) -> Planned {
    plan_case(case).expect("the case is answered")
}

#[test]
fn case_l_is_listed_as_printed() {
    let listing = "PL 2 0 1 0 0 0 0 0 0 0\n\
                   GR 0\n\
                   BU 0 0 0000000000000000\n\
                   BU 1 0 BFD0000000000000\n\
                   GE 0 4049000000000000\n\
                   CO 0 1 4049000000000000 4059000000000000\n\
                   MX 3FE0000000000000 3FD0000000000000\n";
    assert_eq!(answer_list(&write_case(&case_l())), listing);
}

#[test]
fn example_1_roots() {
    assert_eq!(square_root(0.25f64.to_bits()), 0.5f64.to_bits());
    assert_eq!(square_root(1), 2f64.powi(-537).to_bits());
}

#[test]
fn example_2_a_unit_without_quadratic_cost_jumps() {
    let unit = [(0.0, 100.0, 10.0, 0.0)];
    assert_eq!(dispatch(&unit, 50.0), Ok(vec![0.0]));
    assert_eq!(dispatch(&unit, 100.0), Ok(vec![100.0]));
}

#[test]
fn example_3_a_unit_that_stands_still() {
    assert_eq!(dispatch(&[(30.0, 30.0, 10.0, 1.0)], 30.0), Ok(vec![30.0]));
}

#[test]
fn example_4_bank_classes() {
    let ratio = |mva| {
        let (r, x) = impedance(mva).expect("the rating is good");
        (x / r).round()
    };
    assert_eq!(
        [100.0, 100.5, 400.0, 400.5].map(ratio),
        [25.0, 35.0, 35.0, 45.0]
    );
    let (_, x) = impedance(100.0).expect("the rating is good");
    assert_eq!(
        x,
        0.12 * 100.0 / 100.0 / (1.0 + 1.0 / (25.0 * 25.0f64)).sqrt()
    );
}

#[test]
fn example_5_leaders() {
    assert_eq!(accepted_leaders(3, &[(0, 1), (1, 2)]), Ok(vec![2, 2, 2]));
    assert_eq!(accepted_leaders(3, &[(2, 0)]), Ok(vec![0, 1, 0]));
}

#[test]
fn example_6_both_ends_rise_above_the_higher() {
    let mut case = case_l();
    case.mode = EXPAND;
    case.ladder = vec![765.0, 345.0, 138.0, 69.0];
    case.buses[0].tier = 1;
    case.buses[1] = Bus::plain(3, 500.0);
    case.generators[0].pmax = 1_000.0;
    // Carried by three lines at 345 kV, or by one at 765 kV.
    let line = |x, rate| Line {
        x,
        rate,
        ..case_l().sheet[0]
    };
    case.sheet = vec![
        line(0.01, 1_000.0),
        line(0.01, 200.0),
        line(0.01, 200.0),
        line(0.01, 200.0),
    ];
    let planned = planned(&case);
    assert_eq!(
        planned.buses.iter().map(|b| b.tier).collect::<Vec<_>>(),
        [0, 0]
    );
    assert_eq!(planned.plan.promoted_buses, 2);
}

#[test]
fn example_7_caps() {
    let circuits = |mode, kv| {
        let mut case = case_l();
        case.mode = mode;
        case.ladder = vec![kv];
        case.buses[1].reading = 1e4;
        case.generators[0].pmax = 1e4;
        case.sheet[0].x = 1e-4;
        planned(&case).plan.circuits[0]
    };
    assert_eq!(circuits(EXPAND, 69.0), 4);
    assert_eq!(circuits(REINFORCE, 99.9), 6);
    assert_eq!(circuits(REINFORCE, 100.0), 4);
}

#[test]
fn example_8_filling() {
    let filled = |target, caps: [u8; 3]| {
        let mut case = case_l();
        case.mode = EXPAND;
        case.target = target;
        case.buses = vec![Bus::plain(0, 0.0); 4];
        case.corridors = [(1, 10.0), (4, 20.0), (2, 30.0)]
            .iter()
            .enumerate()
            .map(|(i, &(circuits, length))| CorridorRecord {
                cap: caps[i],
                a: i as u16,
                b: i as u16 + 1,
                circuits,
                length,
                share: 1.0,
                ..CorridorRecord::default()
            })
            .collect();
        case.sheet = vec![case.sheet[0]; 3];
        let plan = planned(&case).plan;
        (plan.circuits, plan.filler_circuits)
    };
    assert_eq!(filled(10, [0, 0, 0]), (vec![3, 4, 3], 3));
    assert_eq!(filled(20, [0, 0, 0]), (vec![4, 4, 4], 5));
    // Own caps (document 02, K5): the first stops at 2, the last goes on to 6.
    assert_eq!(filled(20, [2, 0, 6]), (vec![2, 4, 6], 5));
    assert_eq!(filled(20, [1, 2, 3]), (vec![1, 4, 3], 1));
}

/// One corridor that needs eight circuits at 138 kV, three where a level above
/// is left.
#[test]
fn own_caps_in_sizing() {
    let sized = |mode, cap, above: usize| {
        let mut case = case_l();
        case.mode = mode;
        case.buses[1].reading = 700.0;
        case.generators[0].pmax = 1_000.0;
        case.corridors[0].cap = cap;
        case.sheet[0].x = 1e-3;
        case.sheet.resize(1 + above, case.sheet[0]);
        case.ladder = [345.0, 138.0][1 - above..].to_vec();
        case.above = above;
        let plan = planned(&case).plan;
        let raised = plan.promoted_buses;
        (
            plan.circuits[0],
            plan.capped_corridors,
            plan.converged,
            raised,
        )
    };
    for mode in [EXPAND, REINFORCE] {
        assert_eq!(sized(mode, 0, 0), (4, 1, false, 0));
        assert_eq!(sized(mode, 2, 0), (2, 1, false, 0));
        assert_eq!(sized(mode, 6, 0), (6, 1, false, 0));
    }
    // The raise asks for more than two circuits, whatever the cap is.
    assert_eq!(sized(EXPAND, 1, 1), (1, 1, false, 2));
    // Observing changes no count and counts none as capped.
    assert_eq!(sized(2, 1, 0), (1, 0, true, 0));
}

#[test]
fn example_9_injection_at_the_ground_only() {
    let solve = angles(&Network {
        edges: vec![(0, 1, 2.0), (1, 2, 3.0)],
        injection: vec![0.0, 5.0, 0.0],
        grounds: vec![1],
        guess: Some(vec![7.0, 8.0, 9.0]),
    })
    .expect("the angles are finite");
    assert_eq!(solve.angles, [0.0; 3]);
    assert_eq!(solve.moves, 0);
}

#[test]
fn example_10_condensers() {
    let placed = |km, load| {
        placement(&Support {
            buses: vec![(0.0, 1.0), (0.0, 1.0), (load, 1.0)],
            corridors: vec![(0, 1, km), (1, 2, km)],
            generator_buses: vec![0],
        })
    };
    assert_eq!(placed(50.0, 40.0), Ok(vec![]));
    assert_eq!(placed(60.0, 8.0), Ok(vec![(2, 5.0)]));
    assert_eq!(placed(60.0, 40.0), Ok(vec![(2, 20.0)]));
}

#[test]
fn example_11_initial_counts() {
    let counts = |circuits| {
        let mut case = case_l();
        case.mode = EXPAND;
        case.corridors[0].circuits = circuits;
        let plan = planned(&case).plan;
        (plan.circuits[0], plan.capacity_circuits)
    };
    assert_eq!(counts(9), (9, 0));
    assert_eq!(counts(0), (1, 0));
}

#[test]
fn example_12_a_susceptance_that_is_not_finite() {
    let mut case = case_l();
    case.sheet[0].x = 1e-200;
    assert_eq!(plan_case(&case).err(), Some(Refusal::new(9, 0)));
}

/// Only stiffening solves for a unit injection, and only Expand stiffens.
#[test]
fn the_angles_of_a_unit_solve_count() {
    let mut case = case_l();
    case.sheet[0].r = 1e154;
    case.sheet[0].x = 1e-5;
    case.buses[1].reading = 1e-150;
    case.mode = EXPAND;
    assert_eq!(plan_case(&case).err(), Some(Refusal::new(9, 0)));
    case.mode = REINFORCE;
    assert!(plan_case(&case).is_ok());
}

/// Case L whose second bus has this reading and weight.
fn weighed(reading: f64, weight: f64) -> Case {
    let mut case = case_l();
    case.buses[1] = Bus {
        reading,
        weight,
        weighed: true,
        ..case.buses[1]
    };
    case
}

#[test]
fn a_load_is_the_reading_times_its_weight_rounded_once() {
    for (reading, weight) in [(25.0, 2.0), (50.0, 1.0), (0.1, 500.0), (0.3, 0.1)] {
        let dispatch = planned(&weighed(reading, weight)).plan.dispatch;
        assert_eq!(dispatch, [reading * weight]);
    }
}

#[test]
fn readings_weights_and_products_that_are_refused() {
    for (reading, weight) in [
        (-0.0, 2.0),
        (0.0, 1000.0),
        (1e6, 1.0),
        (1000.0, 1000.0),
        (1e-200, 1e-200),
        (1e6, 5e-324),
    ] {
        let refused = plan_case(&weighed(reading, weight)).err();
        assert_ne!(refused.map(|r| r.number), Some(4), "{reading} {weight}");
    }
    for (reading, weight) in [
        (50.0, 0.0),
        (50.0, -0.0),
        (0.0, 1000f64.next_up()),
        (50.0, -1.0),
        (50.0, f64::NAN),
        (50.0, f64::INFINITY),
        (1e6f64.next_up(), 0.5),
        (-5e-324, 1.0),
        (f64::NAN, 1.0),
        (f64::INFINITY, 1e-3),
        (1e6, 1f64.next_up()),
        (1001.0, 1000.0),
    ] {
        let refused = plan_case(&weighed(reading, weight)).err();
        assert_eq!(refused, Some(Refusal::new(4, 1)), "{reading} {weight}");
    }
}
