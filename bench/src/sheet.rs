//! The line office's sheet: all levels of all corridors, at their largest counts. The published `line_parameters` works a
//! row out for a kV, a length and a spread. The two are not equal bit by bit (docs/DIFFERENCES.md), so the port's rows are
//! judged by the rules of document 02 and the Rust's are not looked at.

use crate::ports::{line_sheet, AnswerSaid};
use crate::{least, report};
use reference::harness::sheet::{SheetRequest, ROW};
use reference::judge::judge;

/// So many corridors, whose lengths go round the whole curve, and levels from 765 kV down. The spreads fall from 4 to 0.25,
/// or all are the same.
fn request(corridors: usize, levels: usize, same: Option<f64>) -> SheetRequest {
    let kvs = [765.0, 500.0, 345.0, 138.0, 69.0];
    SheetRequest {
        ladder: kvs[..levels].to_vec(),
        corridors: (0..corridors)
            .map(|k| {
                let turn = k as f64 / corridors as f64;
                let falling = 0.25 + 3.75 * (1.0 - turn);
                (1_200.0 * turn, same.unwrap_or(falling))
            })
            .collect(),
    }
}

fn compare(corridors: usize, levels: usize, same: Option<f64>, runs: usize) {
    let request = request(corridors, levels, same);
    let (km, spread): (Vec<f64>, Vec<f64>) = request.corridors.iter().copied().unzip();
    let mut sheet = vec![0.0; ROW * corridors * levels];
    let said = line_sheet(&request.ladder, &km, &spread, &mut sheet);
    let answered = AnswerSaid {
        refusal: 0,
        index: 0,
    };
    assert_eq!(said, answered, "a sheet is refused");
    let rows: Vec<[f64; ROW]> = sheet
        .chunks(ROW)
        .map(|row| row.try_into().expect("a row"))
        .collect();
    if let Err(why) = judge(&request, &rows) {
        panic!("a sheet is wrong: {why}");
    }
    let times = least(
        runs,
        || {
            std::hint::black_box(line_sheet(&request.ladder, &km, &spread, &mut sheet));
        },
        || {
            std::hint::black_box(request.published());
        },
    );
    let spreads = same.map_or(String::new(), |s| format!(", spreads {s}"));
    report(
        &format!("sheet, corridors {corridors}, levels {levels}{spreads}"),
        &format!("{} rows", corridors * levels),
        times,
    );
}

/// A refusal is told with its number and index: the spread of the last of three corridors.
fn compare_refusal() {
    let said = line_sheet(&[138.0], &[1.0; 3], &[1.0, 4.0, 5.0], &mut [0.0; 3 * ROW]);
    let refused = AnswerSaid {
        refusal: 22,
        index: 2,
    };
    assert_eq!(said, refused, "a spread of 5 is answered");
}

pub fn run() {
    compare_refusal();
    compare(1, 1, None, 4000);
    compare(256, 1, None, 1000);
    compare(256, 1, Some(1.0), 1000);
    compare(256, 5, None, 1000);
}
