//! What idle units serve of the demand that a dispatch leaves (document 02, K4),
//! as the request has it: in modes 3 to 5 the planner calls it after the
//! dispatch of each component.

use crate::watch::{seen, seen_if, Branch};

/// The cheapest unit that has not had its turn, the first of equal ones.
fn cheapest(units: &[(f64, f64, f64, f64)], done: &[bool]) -> Option<usize> {
    let mut best: Option<usize> = None;
    for i in 0..units.len() {
        if done[i] {
            continue;
        }
        match best {
            Some(j) if units[j].2 <= units[i].2 => {
                seen_if(units[j].2 == units[i].2, Branch::ServingTie);
            }
            _ => best = Some(i),
        }
    }
    best
}

/// `units` holds `(pmin, pmax, c1, c2)`, `out` their MW.
pub fn serve_unmet(units: &[(f64, f64, f64, f64)], demand: f64, out: &mut [f64]) {
    let mut done = vec![false; units.len()];
    while let Some(i) = cheapest(units, &done) {
        let mut sum = 0.0;
        for mw in out.iter() {
            sum += mw;
        }
        let difference = demand - sum;
        let first = !done.contains(&true);
        if !(difference > 0.0) {
            seen_if(first, Branch::ServingNotNeeded);
            seen_if(!first, Branch::ServingMet);
            return;
        }
        let pmax = units[i].1;
        seen_if(out[i] == pmax, Branch::ServingPassedOver);
        seen_if(done[i..].contains(&true), Branch::ServingBackwards);
        done[i] = true;
        let wanted = out[i] + difference;
        if wanted < pmax {
            out[i] = wanted;
            seen(Branch::ServingLast);
            let left = demand - out.iter().fold(0.0, |sum, mw| sum + mw);
            seen_if(left > 0.0, Branch::ServingRounded);
            seen_if(left < 0.0, Branch::ServingExceeded);
            return;
        }
        out[i] = pmax;
    }
    seen(Branch::ServingAll);
}
