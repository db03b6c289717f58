//! The listing of a planned case.

use std::fmt::Write;

use crate::harness::case_file::read_case;
use crate::harness::figures::listed;
use crate::harness::plan::{plan_case, Planned};

/// The listing, line by line as document 01 prints it.
pub fn list(mode: u8, planned: &Planned) -> String {
    let plan = &planned.plan;
    let mut text = format!(
        "PL {mode} {} {} {} {} {} {} {} {} {}\n",
        plan.rounds,
        u8::from(plan.converged),
        plan.capacity_circuits,
        plan.stiffening_circuits,
        plan.filler_circuits,
        plan.promoted_buses,
        plan.upsized_transformers,
        plan.overloaded_corridors,
        plan.capped_corridors
    );
    let mut line = |words: std::fmt::Arguments| writeln!(text, "{words}").expect("text grows");
    for &kv in &plan.added_levels_kv {
        line(format_args!("AD {}", listed(kv)));
    }
    for ground in &plan.grounds {
        line(format_args!("GR {ground}"));
    }
    for (i, (bus, &angle)) in planned.buses.iter().zip(&plan.angles).enumerate() {
        line(format_args!("BU {i} {} {}", bus.tier, listed(angle)));
    }
    for (i, &mw) in plan.dispatch.iter().enumerate() {
        line(format_args!("GE {i} {}", listed(mw)));
    }
    for (i, (circuits, design)) in plan.circuits.iter().zip(&planned.designs).enumerate() {
        let flow = listed(plan.corridor_flow[i]);
        line(format_args!(
            "CO {i} {circuits} {flow} {}",
            listed(design.rate_a)
        ));
    }
    let spread = listed(plan.angle_spread_rad);
    line(format_args!("MX {} {spread}", listed(plan.max_loading)));
    text
}

/// The answer of the listing program to a case file.
pub fn answer_list(file: &[u8]) -> String {
    let answer = read_case(file).and_then(|case| Ok(list(case.mode, &plan_case(&case)?)));
    answer.unwrap_or_else(|refusal| format!("{refusal}\n"))
}
