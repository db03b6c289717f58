//! Moving a file into the other form of its buses, and back.

use reference::generate::cases::moved::file_to_move;
use reference::harness::case_file::{read_case, write_case, MOST_BYTES};
use reference::harness::case_text::parse_text;
use reference::harness::listing::answer_list;
use reference::harness::moves::Direction::{Back, Forward};
use reference::harness::moves::{answer_move, move_file, Direction};

fn padded(file: &[u8]) -> Vec<u8> {
    let mut padded = file.to_vec();
    padded.resize(MOST_BYTES, 0);
    padded
}

/// Three buses with these marks and weights, and a corridor.
fn file_of(buses: &str) -> Vec<u8> {
    let text = format!(
        "HD 2 0 3 1 1 0 1  LV 138  {buses}  GE 0 1 0 100 20 0.25  CP 0 1 1 10 1 0  LN 0 0.5 0 100 0"
    );
    write_case(&parse_text(&text).expect("a case"))
}

fn refused(file: &[u8], direction: Direction) -> (u32, usize) {
    let refusal = move_file(file, direction).expect_err("the file is refused");
    (refusal.number, refusal.index)
}

#[test]
fn a_moved_file_is_the_case_written_in_the_other_form() {
    let mut moved = 0;
    for direction in [Forward, Back] {
        for seed in 0..400 {
            let file = file_to_move(seed, direction).bytes;
            let Ok(answer) = move_file(&file, direction) else {
                continue;
            };
            let mut case = read_case(&file).expect("what is moved can be read");
            for bus in &mut case.buses {
                assert_eq!(bus.weight, 1.0);
                bus.weighed = direction == Forward;
            }
            assert_eq!(answer, padded(&write_case(&case)), "seed {seed}");
            assert_eq!(move_file(&answer, direction.other()), Ok(padded(&file)));
            moved += 1;
        }
    }
    assert!(moved > 300);
}

#[test]
fn both_forms_plan_alike() {
    let plain = file_of("BU 0 0  BU 0 40  BU 0 1e-300");
    let weighed = file_of("BV 0 0 1  BV 0 40 1  BV 0 1e-300 1");
    assert_eq!(move_file(&plain, Forward), Ok(padded(&weighed)));
    assert_eq!(move_file(&weighed, Back), Ok(padded(&plain)));
    assert_eq!(answer_list(&plain), answer_list(&padded(&weighed)));
}

#[test]
fn refusals_in_order() {
    let plain = file_of("BU 0 0  BU 0 40  BU 0 5");
    let weighed = file_of("BV 0 0 1  BV 0 40 2  BV 0 5 0");
    // The other form at the first bus, which is record 2; 14 where it is cut.
    assert_eq!(refused(&weighed, Forward), (15, 2));
    assert_eq!(refused(&plain, Back), (15, 2));
    assert_eq!(refused(&weighed[..25 + 18], Forward), (14, 2));
    assert_eq!(refused(&weighed[..25 + 19], Forward), (15, 2));
    assert_eq!(refused(&plain[..25 + 10], Back), (14, 2));
    assert_eq!(refused(&plain[..25 + 11], Back), (15, 2));
    // Mixed forms where they meet.
    assert_eq!(
        refused(&file_of("BU 0 0  BU 0 1  BV 0 1 1"), Forward),
        (15, 4)
    );
    assert_eq!(
        refused(&file_of("BV 0 0 1  BU 0 1  BV 0 1 1"), Back),
        (15, 3)
    );
    // 21 at the first weight that is not 1, after everything else.
    assert_eq!(refused(&weighed, Back), (21, 1));
    let mut behind = weighed.clone();
    behind.push(1);
    assert_eq!(refused(&behind, Back), (17, weighed.len()));
    assert_eq!(refused(&weighed[..weighed.len() - 1], Back), (14, 7));
    let mut long = padded(&weighed);
    long.push(0);
    assert_eq!(refused(&long, Back), (13, 0));
    for weight in [
        "1.0000000000000002",
        "0.9999999999999999",
        "-1",
        "NaN",
        "inf",
    ] {
        let file = file_of(&format!("BV 0 0 1  BV 0 40 1  BV 0 5 {weight}"));
        assert_eq!(refused(&file, Back), (21, 2), "{weight}");
    }
}

#[test]
fn figures_are_copied_bit_by_bit() {
    let mut file = file_of("BU 0 0  BU 0 -0  BU 255 1e9");
    for bits in [0x7FF0_0000_0000_0001u64, 0xFFFF_FFFF_FFFF_FFFF] {
        file[25 + 3..25 + 11].copy_from_slice(&bits.to_le_bytes());
        let moved = move_file(&file, Forward).expect("figures are not looked at");
        assert_eq!(moved[25 + 3..25 + 11], bits.to_le_bytes());
        assert_eq!(moved[25 + 11..25 + 19], 1f64.to_le_bytes());
        assert_eq!(move_file(&moved, Back), Ok(padded(&file)));
    }
}

#[test]
fn a_file_without_buses_has_both_forms() {
    let text = "HD 2 0 0 0 0 0 1  LV 138";
    let file = write_case(&parse_text(text).expect("a case"));
    for direction in [Forward, Back] {
        assert_eq!(answer_move(&file, direction), padded(&file));
        assert_eq!(answer_move(&padded(&file), direction), padded(&file));
    }
}
