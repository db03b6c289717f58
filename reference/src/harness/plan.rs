//! Planning a case: the checks, then the published `plan_corridors`.

use crate::electrical::branches::{CircuitDesign, CorridorDraw, LineRow};
use crate::electrical::generators::DraftGenerator;
use crate::electrical::planning::{plan_corridors, CorridorPlan, PlanMode};
use crate::harness::checks::{accept_case, case_costs_are_finite};
use crate::harness::refusal::{Refusal, NOT_FINITE};
use crate::harness::tables::{Case, SERVING};
use crate::site::DraftBus;
use crate::topology::Corridor;
use crate::watch::unless_not_finite;

/// A plan and what it left of the buses and the designs.
pub struct Planned {
    pub plan: CorridorPlan,
    pub buses: Vec<DraftBus>,
    pub designs: Vec<CircuitDesign>,
}

/// What a mode does, whether or not idle units serve.
fn mode(number: u8) -> PlanMode {
    match number % SERVING {
        0 => PlanMode::Expand,
        1 => PlanMode::Reinforce,
        _ => PlanMode::Observe,
    }
}

fn draft_buses(case: &Case) -> Vec<DraftBus> {
    let levels = &case.ladder[case.above..];
    case.buses
        .iter()
        .map(|bus| DraftBus {
            tier: bus.tier.into(),
            base_kv: levels[usize::from(bus.tier)],
            load_mw: bus.load(),
        })
        .collect()
}

fn draft_generators(case: &Case) -> Vec<DraftGenerator> {
    case.generators
        .iter()
        .map(|g| DraftGenerator {
            bus: g.bus.into(),
            pmax_mw: g.pmax,
            pmin_mw: g.pmin,
            qmax_mvar: 0.0,
            c2: g.c2,
            c1: g.c1,
            slack: g.slack == 1,
            condenser: false,
        })
        .collect()
}

fn draft_corridors(case: &Case, buses: &[DraftBus]) -> Vec<Corridor> {
    case.corridors
        .iter()
        .map(|c| {
            let (a, b) = (usize::from(c.a), usize::from(c.b));
            Corridor {
                a,
                b,
                kv: buses[a].base_kv.max(buses[b].base_kv),
                length_km: c.length,
                circuits: c.circuits.into(),
                cap: c.cap.into(),
            }
        })
        .collect()
}

/// The sheet with each row's level beside it.
fn line_rows(case: &Case) -> Vec<LineRow> {
    case.sheet
        .iter()
        .zip(case.ladder.iter().cycle())
        .map(|(line, &kv)| LineRow {
            kv,
            r_pu: line.r,
            x_pu: line.x,
            b_pu: line.b,
            rate: line.rate,
            basis: ["thermal", "loadability"][usize::from(line.basis)],
        })
        .collect()
}

/// Plans `case`, or refuses it with 2 to 9.
pub fn plan_case(case: &Case) -> Result<Planned, Refusal> {
    accept_case(case)?;
    case_costs_are_finite(case)?;
    let mut buses = draft_buses(case);
    let generators = draft_generators(case);
    let mut corridors = draft_corridors(case, &buses);
    let rows = line_rows(case);
    let draws: Vec<CorridorDraw> = rows
        .chunks(case.ladder.len())
        .zip(&case.corridors)
        .map(|(sheet, c)| CorridorDraw {
            sheet,
            rate_spread: c.share,
        })
        .collect();
    let (above, levels) = case.ladder.split_at(case.above);
    let planned = unless_not_finite(|| {
        plan_corridors(
            &mut buses,
            levels,
            above,
            &mut corridors,
            &draws,
            &generators,
            case.target as usize,
            mode(case.mode),
            case.mode >= SERVING,
        )
    });
    let (designs, plan) = planned.ok_or(Refusal::new(NOT_FINITE, 0))?;
    Ok(Planned {
        plan,
        buses,
        designs,
    })
}
