//! How far a program's line sheets are from the published `line_parameters`:
//! for each figure the largest difference met, as a share of the figure.

use std::collections::{BTreeMap, BTreeSet};
use std::io;

use crate::compare::{lines, rows_of, Program, Run};
use crate::electrical::params::line_class_for;
use crate::generate::requests::{as_input, batch, MOST_REQUESTS};
use crate::harness::answers::sheet_request;
use crate::harness::figures::listed_bits;
use crate::harness::sheet::{published_row, SheetRequest, ROW};
use crate::judge::class_of;

/// Rows in which a figure was compared, and its largest difference.
#[derive(Default)]
struct Found {
    rows: usize,
    differing: usize,
    largest: f64,
}

#[derive(Default)]
struct Tally {
    figures: BTreeMap<&'static str, Found>,
    /// kV of another class, by their bits.
    other_class: BTreeSet<u64>,
}

impl Tally {
    fn count(&mut self, figure: &'static str, ours: f64, published: f64) {
        let found = self.figures.entry(figure).or_default();
        found.rows += 1;
        if listed_bits(ours) != listed_bits(published) {
            found.differing += 1;
            let share = ((ours - published) / published).abs();
            found.largest = found.largest.max(share);
        }
    }

    fn row(&mut self, kv: f64, km: f64, spread: f64, ours: &[f64; ROW]) {
        if class_of(kv) != line_class_for(kv) {
            self.other_class.insert(kv.to_bits());
            return;
        }
        let published = published_row(kv, km, spread);
        let ehv = class_of(kv).kv >= 345.0;
        let impedance = if ehv {
            "r, x from 345 kV on"
        } else {
            "r, x below 345 kV"
        };
        self.count(impedance, ours[0], published[0]);
        self.count(impedance, ours[1], published[1]);
        self.count("b", ours[2], published[2]);
        self.count("basis", ours[4], published[4]);
        if ours[4] == published[4] {
            self.count(rate_of(km, ours[4]), ours[3], published[3]);
        }
    }

    fn sheet(&mut self, request: &SheetRequest, rows: &[[f64; ROW]]) {
        let levels = request.ladder.len();
        for (&(km, spread), rows) in request.corridors.iter().zip(rows.chunks(levels)) {
            for (&kv, row) in request.ladder.iter().zip(rows) {
                self.row(kv, km, spread, row);
            }
        }
    }

    fn text(&self) -> String {
        let head = format!("class: {} kV take another one\n", self.other_class.len());
        self.figures.iter().fold(head, |text, (figure, found)| {
            let Found {
                rows,
                differing,
                largest,
            } = found;
            text + &format!("{figure}: {differing} of {rows} differ, at most by {largest:.2e}\n")
        })
    }
}

fn rate_of(km: f64, basis: f64) -> &'static str {
    match km {
        _ if basis == 0.0 => "rate, thermal",
        _ if km <= 80.0 => "rate, loadability to 80 km",
        _ if km <= 965.0 => "rate, loadability between knots",
        _ => "rate, loadability past 965 km",
    }
}

/// What `program` answers to `batches` batches of SHEET requests, against the
/// published code.
pub fn sheet_differences(program: &Program, first_seed: u64, batches: u64) -> io::Result<String> {
    let mut tally = Tally::default();
    for seed in first_seed..first_seed + batches {
        let requests = batch("SHEET", seed, MOST_REQUESTS).expect("the kind is known");
        let Run::Ended(output) = program.run(as_input(&requests))? else {
            return Err(io::Error::other("the program did not end well"));
        };
        for (request, line) in requests.iter().zip(lines(&output)) {
            if let (Some(request), Some(rows)) = (sheet_request(&request.line), rows_of(line)) {
                tally.sheet(&request, &rows);
            }
        }
    }
    Ok(tally.text())
}
