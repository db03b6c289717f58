//! The judge of line sheets: it takes the published rows, where the class is
//! not in question, and what document 02 (K8) fixes otherwise; it does not
//! take a wrong sheet.

use reference::compare::rows_of;
use reference::electrical::branches::BASE_MVA;
use reference::electrical::params::{line_class_for, st_clair_loadability, LineClass};
use reference::generate::requests::{batch, BENDS, CLASS_BOUNDS};
use reference::harness::answers::{answer, sheet_request};
use reference::harness::sheet::{SheetRequest, ROW};
use reference::judge::{class_of, judge};
use reference::whole::Whole;

/// Some of the batches that the gate asks of the program, none of them long.
const BATCHES: [u64; 5] = [1, 2, 4, 5, 6];

fn moved(v: f64, places: i64) -> f64 {
    f64::from_bits(v.to_bits().wrapping_add_signed(places))
}

/// The seeded requests that are answered.
fn answered() -> Vec<SheetRequest> {
    BATCHES
        .into_iter()
        .flat_map(|seed| batch("SHEET", seed, 4_096).expect("a kind"))
        .filter_map(|request| sheet_request(&request.line))
        .filter(|request| request.check().is_ok())
        .collect()
}

/// How a sheet is worked out, for sheets that are wrong in one place.
struct Rules {
    class: fn(f64) -> &'static LineClass,
    /// The spread that a class keeps.
    kept: fn(&LineClass, f64) -> f64,
    load: fn(f64) -> f64,
    loadability_basis: f64,
}

const RIGHT: Rules = Rules {
    class: class_of,
    kept: |class, spread| match class.kv >= 345.0 {
        true => spread.powf(0.6),
        false => spread,
    },
    load: st_clair_loadability,
    loadability_basis: 1.0,
};

impl Rules {
    fn row(&self, kv: f64, km: f64, spread: f64) -> [f64; ROW] {
        let class = (self.class)(kv);
        let kept = (self.kept)(class, spread);
        let (z, ratio) = (kv * kv / BASE_MVA, kv / class.kv);
        let thermal = class.thermal_mva * ratio;
        let limit = class.sil_mw * ratio * ratio * (self.load)(km);
        let (rate, basis) = match limit < thermal {
            true => (limit, self.loadability_basis),
            false => (thermal, 1.0 - self.loadability_basis),
        };
        [
            class.r_ohm_per_km * km * kept / z,
            class.x_ohm_per_km * km * kept / z,
            class.b_us_per_km * 1e-6 * km * z,
            rate,
            basis,
        ]
    }

    fn sheet(&self, request: &SheetRequest) -> Vec<[f64; ROW]> {
        let mut rows = Vec::new();
        for &(km, spread) in &request.corridors {
            rows.extend(request.ladder.iter().map(|&kv| self.row(kv, km, spread)));
        }
        rows
    }
}

/// How many of the seeded requests the judge takes, and how many there are.
fn taken(sheet: impl Fn(&SheetRequest) -> Vec<[f64; ROW]>) -> (usize, usize) {
    let requests = answered();
    let right = |request: &&SheetRequest| judge(request, &sheet(request)).is_ok();
    (requests.iter().filter(right).count(), requests.len())
}

#[test]
fn the_published_power_and_curve_are_right() {
    let (right, all) = taken(|request| RIGHT.sheet(request));
    assert_eq!(right, all);
}

#[test]
fn the_published_class_is_another_at_some_bounds() {
    let (right, all) = taken(SheetRequest::published);
    assert!(right < all, "{right} of {all}");
    for request in answered() {
        if judge(&request, &request.published()).is_err() {
            let other = |&&kv: &&f64| class_of(kv) != line_class_for(kv);
            assert!(request.ladder.iter().find(other).is_some());
        }
    }
}

#[test]
fn wrong_sheets_are_told_apart() {
    let wrong: [(&str, Rules); 12] = [
        (
            "the tie to the higher class",
            Rules {
                class: higher_on_tie,
                ..RIGHT
            },
        ),
        (
            "no power at 345",
            Rules {
                kept: |c, s| if c.kv > 345.0 { s.powf(0.6) } else { s },
                ..RIGHT
            },
        ),
        (
            "the power at 230",
            Rules {
                kept: |c, s| if c.kv >= 230.0 { s.powf(0.6) } else { s },
                ..RIGHT
            },
        ),
        (
            "no power",
            Rules {
                kept: |_, s| s,
                ..RIGHT
            },
        ),
        (
            "the power 0.4",
            Rules {
                kept: |c, s| if c.kv >= 345.0 { s.powf(0.4) } else { s },
                ..RIGHT
            },
        ),
        (
            "the power 3e-9 too large",
            Rules {
                kept: |c, s| if c.kv >= 345.0 { s.powf(0.6) + 3e-9 } else { s },
                ..RIGHT
            },
        ),
        (
            "the power 3e-9 too small",
            Rules {
                kept: |c, s| if c.kv >= 345.0 { s.powf(0.6) - 3e-9 } else { s },
                ..RIGHT
            },
        ),
        (
            "no floor",
            Rules {
                load: |km| {
                    if km > 965.0 {
                        0.6 * (965.0 / km).sqrt()
                    } else {
                        st_clair_loadability(km)
                    }
                },
                ..RIGHT
            },
        ),
        (
            "a straight line",
            Rules {
                load: straight,
                ..RIGHT
            },
        ),
        (
            "the curve 3e-5 too high",
            Rules {
                load: |km| shifted(km, 3e-5),
                ..RIGHT
            },
        ),
        (
            "the curve 3e-5 too low",
            Rules {
                load: |km| shifted(km, -3e-5),
                ..RIGHT
            },
        ),
        (
            "basis exchanged",
            Rules {
                loadability_basis: 0.0,
                ..RIGHT
            },
        ),
    ];
    for (what, rules) in wrong {
        let (right, all) = taken(|request| rules.sheet(request));
        println!("{what}: {right} of {all} taken");
        assert!(right < all, "{what}: all {all} are taken");
    }
}

/// The higher class where a kV's square is the product.
fn higher_on_tie(kv: f64) -> &'static LineClass {
    match [415.331_193_145_903_74, 618.465_843_842_649_1].contains(&kv) {
        true => class_of(moved(kv, 1)),
        false => class_of(kv),
    }
}

fn straight(km: f64) -> f64 {
    match 80.0 < km && km <= 160.0 {
        true => 3.0 - (km - 80.0) / 80.0,
        false => st_clair_loadability(km),
    }
}

fn shifted(km: f64, by: f64) -> f64 {
    match 80.0 < km && km <= 965.0 {
        true => st_clair_loadability(km) + by,
        false => st_clair_loadability(km),
    }
}

/// One last place of one figure, in turn, where the rules fix it.
#[test]
fn a_last_place_is_told_apart() {
    let request = SheetRequest {
        ladder: vec![230.0, 69.0],
        corridors: vec![(50.0, 1.5), (2_000.0, 0.25)],
    };
    let right = RIGHT.sheet(&request);
    assert!(judge(&request, &right).is_ok());
    for row in 0..right.len() {
        for figure in 0..ROW {
            let mut wrong = right.clone();
            wrong[row][figure] = moved(wrong[row][figure], 1);
            assert!(
                judge(&request, &wrong).is_err(),
                "row {row}, figure {figure}"
            );
        }
    }
}

/// One power for all levels of a corridor, though each alone would be right.
#[test]
fn a_corridor_has_one_power_and_one_loadability() {
    let request = SheetRequest {
        ladder: vec![500.0, 345.0],
        corridors: vec![(200.0, 1.5)],
    };
    let with = |by: f64, km_by: f64| {
        let kept = 1.5f64.powf(0.6) + by;
        let load = st_clair_loadability(200.0) + km_by;
        [500.0, 345.0].map(|kv| {
            let class = class_of(kv);
            let z = kv * kv / BASE_MVA;
            let mut row = RIGHT.row(kv, 200.0, 1.5);
            row[0] = class.r_ohm_per_km * 200.0 * kept / z;
            row[1] = class.x_ohm_per_km * 200.0 * kept / z;
            row[3] = class.sil_mw * load;
            row
        })
    };
    let (right, other) = (with(0.0, 0.0), with(5e-10, 0.0));
    assert!(judge(&request, &right).is_ok() && judge(&request, &other).is_ok());
    assert!(judge(&request, &[right[0], other[1]]).is_err());
    let other = with(0.0, 5e-6);
    assert!(judge(&request, &other).is_ok());
    assert!(judge(&request, &[right[0], other[1]]).is_err());
    assert!(judge(&request, &right[..1]).is_err());
}

#[test]
fn every_bound_is_asked_for() {
    let requests = answered();
    let kvs: Vec<f64> = requests.iter().flat_map(|r| r.ladder.clone()).collect();
    let corridors: Vec<(f64, f64)> = requests.iter().flat_map(|r| r.corridors.clone()).collect();
    for places in [-1, 0, 1] {
        for kv in CLASS_BOUNDS {
            assert!(kvs.contains(&moved(kv, places)), "{kv} kV, {places}");
        }
        for km in BENDS {
            let asked = |&(length, _): &(f64, f64)| length == moved(km, places);
            assert!(corridors.iter().any(asked), "{km} km, {places}");
        }
    }
    for spread in [0.25, 4.0, moved(0.25, 1), moved(4.0, -1)] {
        let asked = |&&(km, s): &&(f64, f64)| s == spread && km > 0.0;
        assert!(corridors.iter().find(asked).is_some(), "spread {spread}");
    }
    for kv in CLASS_BOUNDS {
        assert_ne!(class_of(kv).kv, class_of(moved(kv, 1)).kv, "{kv}");
        assert_eq!(class_of(kv).kv, class_of(moved(kv, -1)).kv, "{kv}");
    }
}

#[test]
fn refusals_in_order() {
    let (good, zero) = ("4051400000000000", "0000000000000000");
    let one = "3FF0000000000000";
    let five = "4014000000000000";
    let asked = |line: &str| answer(line.as_bytes());
    assert_eq!(asked(&format!("SHEET 0 1 {five} {five}")), "RF 2 0");
    assert_eq!(
        asked(&format!("SHEET 1 {zero} 1 BFF0000000000000 {five}")),
        "RF 3 0"
    );
    assert_eq!(
        asked(&format!("SHEET 1 {good} 1 BFF0000000000000 {five}")),
        "RF 6 0"
    );
    assert_eq!(
        asked(&format!("SHEET 1 {good} 2 {one} {one} {zero} {five}")),
        "RF 22 1"
    );
    assert_eq!(asked(&format!("SHEET 1 {good} 0")), "OK");
    assert_eq!(asked("SHEET 7"), "??");
    assert_eq!(asked(&format!("SHEET 1 {good} 258")), "??");
}

#[test]
fn rows_of_either_sheet() {
    let figure = |n: u64| format!(" {n:016X}");
    let sheet = |from: u64, count: u64| (from..from + count).map(figure).collect::<String>();
    let asked = |head: &str, n: u64, m: u64| {
        let line = format!("ROWS {head} {n}{} {m}{}", sheet(1, n), sheet(101, m));
        answer(line.as_bytes())
    };
    assert_eq!(asked("2 1 1 0", 5, 10), format!("OK 5{}", sheet(1, 5)));
    assert_eq!(asked("2 1 1 1", 5, 10), format!("OK 5{}", sheet(106, 5)));
    assert_eq!(asked("2 1 1 2", 5, 10), "OK 0");
    assert_eq!(asked("2 1 1 0", 4, 10), "OK 0");
    assert_eq!(asked("2 1 1 0", 5, 9), "OK 0");
    assert_eq!(asked("2 1 3 0", 15, 10), "OK 0");
    assert_eq!(asked("2 0 0 0", 0, 0), "OK 0");
    assert_eq!(asked("2 6 0 0", 0, 60), "OK 0");
}

#[test]
fn figures_are_read_as_they_are_listed() {
    assert_eq!(rows_of(b"OK"), Some(Vec::new()));
    assert_eq!(rows_of(b"OK 3FF0000000000000"), None);
    assert_eq!(rows_of(b"RF 2 0"), None);
    let row = |figure: &str| rows_of(format!("OK{}", format!(" {figure}").repeat(ROW)).as_bytes());
    assert!(row("0000000000000000").is_some());
    assert!(row("8000000000000000").is_none());
    assert!(row("7FF8000000000001").is_none());
}

#[test]
fn whole_numbers() {
    let n = |n: u64| Whole::from(n);
    let large = n(u64::MAX).power(3);
    assert_eq!(
        large.less(&n(1)).map(|v| v.plus(&n(1))),
        Some(large.clone())
    );
    assert_eq!(large.times(&n(7)).over(7), large);
    assert_eq!(large.doubled(131).halved(131), large);
    assert_eq!(n(5).less(&n(6)), None);
    assert!(n(0).is_zero() && n(3).power(0) == n(1));
    assert!(n(u64::MAX).plus(&n(1)) > n(u64::MAX));
    assert_eq!(n(1).doubled(64), n(u64::MAX).plus(&n(1)));
    assert_eq!(n(10).power(30).over(1_000_000_000_000_000), n(10).power(15));
}
