//! Requests as text: IEEE values, the two treatments of NaN and zero, what is
//! no request, and the order of the refusals.

use reference::generate::requests::{
    as_input, batch, is_long, largest, KINDS, MOST_BYTES, MOST_REQUESTS, USUAL_BYTES,
};
use reference::harness::answers::{answer, answer_all};
use reference::harness::figures::{as_read, listed};
use reference::tally::Tally;

fn asked(line: &str) -> String {
    answer(line.as_bytes())
}

#[test]
fn roots_of_ieee_values() {
    for (v, root) in [
        ("0000000000000000", "0000000000000000"),
        ("8000000000000000", "8000000000000000"),
        ("4000000000000000", "3FF6A09E667F3BCD"),
        ("4010000000000000", "4000000000000000"),
        ("0010000000000000", "2000000000000000"),
        ("000FFFFFFFFFFFFF", "1FFFFFFFFFFFFFFF"),
        ("7FEFFFFFFFFFFFFF", "5FEFFFFFFFFFFFFF"),
        ("7FF0000000000000", "7FF0000000000000"),
        ("FFF0000000000000", "7FF8000000000000"),
        ("8000000000000001", "7FF8000000000000"),
        ("BFF0000000000000", "7FF8000000000000"),
        ("7FF0000000000001", "7FF8000000000000"),
        ("FFFFFFFFFFFFFFFF", "7FF8000000000000"),
    ] {
        assert_eq!(asked(&format!("SQRT {v}")), format!("OK {root}"));
    }
}

/// Run with --release too: the optimiser is what the one NaN must survive.
#[test]
fn every_nan_is_listed_as_one() {
    for bits in [
        0x7FF8_0000_0000_0001,
        0xFFF8_0000_0000_0000,
        0x7FF0_0000_0000_0001,
        u64::MAX,
    ] {
        let nan = std::hint::black_box(f64::from_bits(bits));
        assert_eq!(listed(nan), "7FF8000000000000");
        assert_eq!(as_read(nan), "7FF8000000000000");
    }
    assert_eq!(listed(std::hint::black_box(-0.0)), "0000000000000000");
    assert_eq!(as_read(std::hint::black_box(-0.0)), "8000000000000000");
    assert_eq!(listed(f64::NEG_INFINITY), "FFF0000000000000");
}

#[test]
fn ratings() {
    assert_eq!(asked("IMP 0000000000000000"), "RF 12 0");
    assert_eq!(asked("IMP 7FF0000000000000"), "RF 12 0");
    assert_eq!(asked("IMP FFF8000000000000"), "RF 12 0");
    // A tiny rating has an infinite impedance, which is answered.
    assert_eq!(
        asked("IMP 0000000000000001"),
        "OK 7FF0000000000000 7FF0000000000000"
    );
}

#[test]
fn leaders_refuse_in_order() {
    assert_eq!(asked("LEAD 0 0"), "OK");
    assert_eq!(asked("LEAD 3 2 0 1 1 2"), "OK 2 2 2");
    assert_eq!(asked("LEAD 257 1 0 0"), "RF 2 0");
    assert_eq!(asked("LEAD 3 3 0 1 1 1 3 0"), "RF 6 1");
}

#[test]
fn dispatch_refuses_in_order() {
    let zero = "0000000000000000";
    let one = "3FF0000000000000";
    let nan = "7FF8000000000000";
    assert_eq!(asked(&format!("DISP 0 {one}")), "OK");
    assert_eq!(
        asked(&format!("DISP 1 {nan} {one} {zero} {zero} {zero}")),
        "RF 5 0"
    );
    assert_eq!(
        asked(&format!("DISP 1 {nan} {zero} {one} {zero} {zero}")),
        "RF 5 0"
    );
    let unit = format!("{zero} {one} {zero} 7FE0000000000000");
    assert_eq!(asked(&format!("DISP 1 3FE0000000000000 {unit}")), "RF 8 0");
    assert_eq!(asked(&format!("DISP 1 {one} {unit}")), format!("OK {one}"));
}

#[test]
fn angles_report_moves_and_end() {
    let one = "3FF0000000000000";
    let zero = "0000000000000000";
    assert_eq!(
        asked(&format!("ANG 2 1 1 0 0 1 {one} {zero} {one} 0")),
        format!("OK 1 SETTLED {zero} {zero} {one}")
    );
    // No edge: the product is zero, no descent.
    assert_eq!(
        asked(&format!("ANG 1 0 0 0 {one}")),
        format!("OK 0 NODESCENT {zero} {zero}")
    );
    assert_eq!(asked(&format!("ANG 1 1 1 0 0 1 {one} {one} 5")), "RF 10 0");
    assert_eq!(asked(&format!("ANG 1 0 2 0 {one} 0 1")), "RF 10 1");
    // A step that is not a number moves the ground too.
    let infinity = "7FF0000000000000";
    assert_eq!(
        asked(&format!("ANG 2 1 1 0 0 1 {infinity} {zero} {one} 0")),
        "RF 9 0"
    );
    // The norm overflows, so the guess is the answer.
    let huge = format!("{:016X}", 1e200f64.to_bits());
    assert_eq!(
        asked(&format!(
            "ANG 2 1 1 1 0 1 {one} {zero} {huge} 0 {one} {infinity}"
        )),
        "RF 9 1"
    );
}

#[test]
fn no_requests() {
    for line in [
        "",
        " ",
        "SQRT",
        "SQRT ",
        "SQRT  3FF0000000000000",
        "SQRT 3FF0000000000000 ",
        " SQRT 3FF0000000000000",
        "SQRT 3ff0000000000000",
        "SQRT 3FF000000000000",
        "SQRT 3FF0000000000000\r",
        "sqrt 3FF0000000000000",
        "LEAD 401 0",
        "LEAD 2 1 0",
        "LEAD 2 1 0 1 1",
        "LEAD +2 0",
        "LEAD 0000000002 0",
        "ANG 0 0 0 2",
    ] {
        assert_eq!(asked(line), "??", "{line:?}");
    }
    assert_eq!(asked("LEAD 000000002 00"), "OK 0 1");
}

#[test]
fn lines() {
    assert_eq!(answer_all(b""), "");
    assert_eq!(answer_all(b"\n"), "??\n");
    assert_eq!(answer_all(b"LEAD 1 0"), "OK 0\n");
    assert_eq!(answer_all(b"LEAD 1 0\n"), "OK 0\n");
    assert_eq!(answer_all(b"\nLEAD 1 0\n\n"), "??\nOK 0\n??\n");
}

#[test]
fn a_seed_gives_the_same_batch_and_keeps_to_its_bytes() {
    for kind in KINDS {
        for seed in 0..8 {
            let input = as_input(&batch(kind, seed, MOST_REQUESTS).expect("a kind"));
            let (least, most) = match is_long(seed) {
                true => (USUAL_BYTES, MOST_BYTES),
                false => (USUAL_BYTES / 2, USUAL_BYTES),
            };
            assert!(least < input.len() && input.len() <= most);
            let again = as_input(&batch(kind, seed, MOST_REQUESTS).expect("a kind"));
            assert_eq!(input, again);
        }
    }
}

/// Every kind with counts has a family with all of them at their bounds. A long
/// batch is of it by half, and the count of branches asks for a hundred.
#[test]
fn the_largest_requests() {
    let (nothing_met, _) = Tally::default().report();
    for kind in KINDS {
        let Some((family, _)) = largest(kind) else {
            assert!(["SQRT", "IMP", "BAD"].contains(&kind), "{kind} has counts");
            continue;
        };
        let requests = batch(kind, 3, MOST_REQUESTS).expect("a kind");
        let at_bounds = requests.iter().filter(|request| request.family == family);
        assert!(at_bounds.count() >= requests.len() / 2);
        let seldom = format!("met less than 100 times: request: {kind}, {family}\n");
        assert!(nothing_met.contains(&seldom), "{seldom}");
    }
}
