//! A season of plans (document 02, K3). All plans taken are kept as a list,
//! and every figure is worked out from the list at the end.

use std::fmt::Write;

use crate::harness::case_file::{read_case, MOST_BYTES};
use crate::harness::plan::plan_case;
use crate::harness::refusal::{Refusal, SEASON_FULL, UNEVEN};

/// The most plans of a season.
pub const MOST_PLANS: usize = 4_096;

/// What a season keeps of a plan.
struct Draft {
    circuits: Vec<u64>,
    rounds: u64,
    converged: bool,
}

fn draft(file: &[u8]) -> Result<Draft, Refusal> {
    let plan = plan_case(&read_case(file)?)?.plan;
    Ok(Draft {
        circuits: plan.circuits.iter().map(|&n| n as u64).collect(),
        rounds: plan.rounds as u64,
        converged: plan.converged,
    })
}

/// 19 where the corridor count is not the first plan's, then 20 where the
/// season is full.
fn take(taken: &mut Vec<Draft>, draft: Draft) -> Result<(), Refusal> {
    let first = taken.first().unwrap_or(&draft);
    if first.circuits.len() != draft.circuits.len() {
        return Err(Refusal::new(UNEVEN, 0));
    }
    if taken.len() == MOST_PLANS {
        return Err(Refusal::new(SEASON_FULL, 0));
    }
    taken.push(draft);
    Ok(())
}

/// `over` / `under` in lowest terms, by trying every divisor from above; 0
/// over 1 where `under` is 0.
pub fn lowest(over: u64, under: u64) -> (u64, u64) {
    let divides_both = |d: &u64| over % d == 0 && under % d == 0;
    match (1..=under).rev().find(divides_both) {
        Some(d) => (over / d, under / d),
        None => (0, 1),
    }
}

/// The mean of some numbers, as text.
fn mean(numbers: &[u64]) -> String {
    let (over, under) = lowest(numbers.iter().sum(), numbers.len() as u64);
    format!("{over} {under}")
}

fn figures(taken: &[Draft]) -> String {
    let column = |f: &dyn Fn(&Draft) -> u64| taken.iter().map(f).collect::<Vec<u64>>();
    let mut text = format!("SE {}\n", taken.len());
    for k in 0..taken.first().map_or(0, |first| first.circuits.len()) {
        let circuits = column(&|d| d.circuits[k]);
        let least = circuits.iter().min().expect("a plan was taken");
        let greatest = circuits.iter().max().expect("a plan was taken");
        let line = format!("CO {k} {least} {greatest} {}", mean(&circuits));
        writeln!(text, "{line}").expect("text grows");
    }
    let rounds = mean(&column(&|d| d.rounds));
    let converged = mean(&column(&|d| u64::from(d.converged)));
    text + &format!("RO {rounds}\nCV {converged}\n")
}

/// What the season program prints of the case files in `input`, each in
/// 65,536 bytes and the last in as many as are left.
pub fn answer_season(input: &[u8]) -> String {
    let mut taken = Vec::new();
    let mut refused = String::new();
    for (place, file) in input.chunks(MOST_BYTES).enumerate() {
        let outcome = draft(file).and_then(|draft| take(&mut taken, draft));
        if let Err(Refusal { number, index }) = outcome {
            writeln!(refused, "RF {place} {number} {index}").expect("text grows");
        }
    }
    refused + &figures(&taken)
}
