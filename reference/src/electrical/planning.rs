//! Corridor planning: decide the voltage class and the number of circuits
//! of every corridor before any validation runs. The planning case is the
//! peak load served by the least-cost dispatch of the generators (an economic
//! dispatch that ignores the network); a lossless DC power flow puts that
//! dispatch on the corridors. A corridor whose flow would need more than
//! [`UPGRADE_CIRCUITS`] circuits at its voltage raises its ends to the next
//! level, as a planner chooses the class by the power and distance a
//! corridor carries. Then every corridor whose circuits would run above
//! [`PLANNING_UTILISATION`] of their rating gets more circuits. Added circuits
//! pull flow toward themselves, so the plan repeats until no corridor needs
//! more (Garver's flow-driven expansion). A corridor that steps down through
//! a transformer first takes a larger bank, up to the rating of its line,
//! before it takes another circuit. Every corridor within its own rating can
//! still add up to too wide an angle along a chain, so the plan then
//! stiffens any island whose planning-case angle spread exceeds
//! [`MAX_ANGLE_SPREAD_RAD`], reinforcing the corridors whose reinforcement
//! narrows the spread most to first order. Circuits the requested branch
//! factor still leaves to place go where the planned flow is heaviest.
//!
//! Ratings stay what the conductor and the line length allow; capacity comes
//! from circuits. The DC power flow is the grounded Laplacian system solved
//! by Jacobi-preconditioned conjugate gradients, O(iterations × branches),
//! with no dependence on platform or clock.
// reference edit: every call of `seen` or `seen_if` only counts a branch, and
// `finite` hands its figures on unless one of them is not finite.

use crate::electrical::branches::{design_circuits, CircuitDesign, CorridorDraw, BASE_MVA};
use crate::electrical::generators::DraftGenerator;
use crate::electrical::params::{
    MAX_ANGLE_SPREAD_RAD, MAX_CIRCUITS_PER_CORRIDOR, PLANNING_MAX_ROUNDS, PLANNING_UTILISATION,
    STIFFENING_BATCH_SHARE, STIFFENING_BRANCH_BUDGET, STIFFENING_HV_SHARE,
    TRANSFORMER_SIZE_STEP_MVA, UPGRADE_CIRCUITS,
};
use crate::geom::delaunay::UnionFind;
use crate::harness::serving::serve_unmet; // reference edit
use crate::site::DraftBus;
use crate::topology::Corridor;
use crate::watch::{finite, seen, seen_if, Branch}; // reference edit

/// Whether the plan may change the network.
#[derive(Clone, Copy, Debug, PartialEq, Eq)]
pub enum PlanMode {
    /// Choose voltage classes and circuits (synthetic corridors).
    Expand,
    /// Add circuits and transformer capacity but keep every bus at its level
    /// (hierarchical networks, whose levels are designed, not chosen by flow).
    Reinforce,
    /// Keep the corridors as given and only measure the planning case
    /// (mapped OSM corridors, whose circuits are real).
    Observe,
}

/// What the plan decided and measured.
#[derive(Clone, Debug, PartialEq)]
pub struct CorridorPlan {
    /// Circuits per corridor.
    pub circuits: Vec<u32>,
    /// Planning dispatch per generator, MW.
    pub dispatch: Vec<f64>,
    /// Total planned flow per corridor, MW, signed from the design's `from`
    /// end to its `to` end, with the final circuit counts.
    pub corridor_flow: Vec<f64>,
    /// The slack bus of each electrical component (its reference generator's
    /// bus when it has one).
    pub grounds: Vec<usize>,
    /// Capacity and stiffening rounds run (each one DC power flow).
    pub rounds: u32,
    /// Buses raised to a higher voltage level because an incident corridor
    /// was too heavy for its class.
    pub promoted_buses: usize,
    /// True when the last capacity round added nothing, no corridor wanted
    /// more circuits than [`MAX_CIRCUITS_PER_CORRIDOR`], and every island's
    /// angle spread is within [`MAX_ANGLE_SPREAD_RAD`].
    pub converged: bool,
    /// Circuits added to narrow the angle spread (banks enlarged for it count
    /// under `upsized_transformers`).
    pub stiffening_circuits: usize,
    /// Widest angle spread of an island in the planning case, radians.
    pub angle_spread_rad: f64, // reference edit: in radians
    /// Circuits added beyond one per corridor for capacity.
    pub capacity_circuits: usize,
    /// Transformer corridors whose bank was enlarged.
    pub upsized_transformers: usize,
    /// Circuits added to reach the requested branch count.
    pub filler_circuits: usize,
    // reference edit: kept for a preview, zeros outside Expand.
    /// Circuits per corridor before filling.
    pub before: Vec<u32>,
    /// Corridors in the order in which filling takes them.
    pub order: Vec<usize>,
    /// Highest circuit loading (flow over rating) of the planning case.
    pub max_loading: f64,
    /// Corridors still loaded above their rating (only when the plan hit a cap).
    pub overloaded_corridors: usize,
    /// Levels the plan added above the modelled ones, highest first: those of
    /// `above` it raised a bus to. Bus tiers count from the first of them.
    pub added_levels_kv: Vec<f64>,
    /// Most circuits on one corridor.
    pub max_parallel_circuits: u32,
    /// Corridors at [`MAX_CIRCUITS_PER_CORRIDOR`] whose planning flow still
    /// needs more circuits at the highest level.
    pub capped_corridors: usize,
    /// Bus angles of the final planning case, radians.
    pub angles: Vec<f64>,
}

/// Raise every marked bus to its marked tier of `ladder`, and every corridor
/// to the higher voltage of its ends. Returns how many buses moved.
fn raise_buses(
    buses: &mut [DraftBus],
    corridors: &mut [Corridor],
    raise: &[Option<usize>],
    ladder: &[f64],
) -> usize {
    let mut moved = 0;
    for (bus, to) in buses.iter_mut().zip(raise) {
        let Some(to) = *to else { continue };
        if to < bus.tier {
            seen_if(to + 1 < bus.tier, Branch::RaisedSeveralTiers); // reference edit
            bus.tier = to;
            bus.base_kv = ladder[to];
            // reference edit: the annotation is left out.
            moved += 1;
        }
    }
    if moved > 0 {
        for c in corridors.iter_mut() {
            c.kv = buses[c.a].base_kv.max(buses[c.b].base_kv);
        }
    }
    moved
}

/// Redesign every corridor at its ends' current voltages, keeping each
/// transformer bank at least as large as the plan already made it.
fn redesign(
    buses: &[DraftBus],
    corridors: &[Corridor],
    generators: &[DraftGenerator],
    draws: &[CorridorDraw],
    bank_floor: &[f64],
) -> Vec<CircuitDesign> {
    let mut designs = design_circuits(buses, corridors, generators, draws);
    for (d, &floor) in designs.iter_mut().zip(bank_floor) {
        if let Some(mva) = d.transformer_mva {
            let keep = floor.min(d.line_rate);
            if keep > mva {
                seen(Branch::FloorKept); // reference edit
                seen_if(keep < floor, Branch::FloorCutToLine); // reference edit
                d.set_transformer_mva(keep);
            }
        }
    }
    designs
}

/// Mark both ends of corridor `c` for the tier above its higher end.
fn mark_raise(raise: &mut [Option<usize>], buses: &[DraftBus], c: &Corridor) -> bool {
    mark_raise_to(raise, buses, c, 0)
}

/// [`mark_raise`], but never above tier `top`.
fn mark_raise_to(
    raise: &mut [Option<usize>],
    buses: &[DraftBus],
    c: &Corridor,
    top: usize,
) -> bool {
    let tier = buses[c.a].tier.min(buses[c.b].tier);
    if tier <= top {
        seen(Branch::MarkRefusedAtTop); // reference edit
        return false;
    }
    for end in [c.a, c.b] {
        raise[end] = Some(raise[end].map_or(tier - 1, |t| t.min(tier - 1)));
    }
    true
}

/// Rounds in which the plan may stiffen; the last quarter of
/// [`PLANNING_MAX_ROUNDS`] only adds capacity, so a plan that runs out of
/// rounds ends with its corridors within their ratings rather than mid-way
/// through a stiffening step. Modelling choice, no source.
const STIFFENING_ROUNDS: u32 = PLANNING_MAX_ROUNDS * 3 / 4;

/// Least-cost outputs of quadratic-cost units meeting `demand` on an
/// unconstrained, lossless network: every unit runs where its incremental
/// cost `c1 + 2 c2 p` equals the common price, unless held at a bound.
/// `units` holds `(pmin, pmax, c1, c2)` with `c2 > 0`.
pub fn economic_dispatch(units: &[(f64, f64, f64, f64)], demand: f64) -> Vec<f64> {
    let at = |price: f64| -> Vec<f64> {
        units
            .iter()
            .map(|&(pmin, pmax, c1, c2)| ((price - c1) / (2.0 * c2.max(1e-12))).clamp(pmin, pmax))
            .collect()
    };
    let pmin: f64 = units.iter().map(|u| u.0).sum();
    let pmax: f64 = units.iter().map(|u| u.1).sum();
    if demand >= pmax {
        seen(Branch::DispatchAtMost); // reference edit
        let moves = units.iter().any(|u| u.0 < u.1); // reference edit
        seen_if(demand <= pmin && moves, Branch::DispatchSumsEqual); // reference edit
        return units.iter().map(|u| u.1).collect();
    }
    if demand <= pmin {
        seen(Branch::DispatchAtLeast); // reference edit
        return units.iter().map(|u| u.0).collect();
    }
    let mut lo = units
        .iter()
        .map(|&(pmin, _, c1, c2)| c1 + 2.0 * c2 * pmin)
        .fold(f64::INFINITY, f64::min);
    let mut hi = units
        .iter()
        .map(|&(_, pmax, c1, c2)| c1 + 2.0 * c2 * pmax)
        .fold(f64::NEG_INFINITY, f64::max);
    let mut narrowed = false; // reference edit: counted below
    for _ in 0..200 {
        let mid = 0.5 * (lo + hi);
        seen_if(mid.is_infinite(), Branch::DispatchMidInfinite); // reference edit
        if at(mid).iter().sum::<f64>() < demand {
            lo = mid;
        } else {
            hi = mid;
        }
        if hi - lo <= 1e-12 * hi.abs().max(1.0) {
            narrowed = true; // reference edit
            break;
        }
    }
    seen_if(narrowed, Branch::DispatchNarrowed); // reference edit
    seen_if(!narrowed, Branch::DispatchTurnsSpent); // reference edit
    let mut out = at(hi);
    // Close the last bisection gap on the units still between their bounds.
    let gap = demand - out.iter().sum::<f64>();
    let free: Vec<usize> = (0..units.len())
        .filter(|&i| out[i] > units[i].0 && out[i] < units[i].1)
        .collect();
    seen_if(free.is_empty(), Branch::DispatchNoneInterior); // reference edit
    seen_if(free.len() > 1, Branch::DispatchSeveralInterior); // reference edit
    if let Some(&i) = free.first() {
        seen(Branch::DispatchGapTaken); // reference edit
        seen_if(
            out[i] + gap < units[i].0 || out[i] + gap > units[i].1,
            Branch::DispatchGapClamped,
        ); // reference edit
        out[i] = (out[i] + gap).clamp(units[i].0, units[i].1);
    }
    out
}

/// Bus angles (radians) of a lossless DC power flow. `edges` are
/// `(a, b, susceptance pu)`, `injection` is per unit, and `grounds` holds one
/// bus per connected component whose angle is fixed at zero (it absorbs any
/// imbalance of its component). Solved on the grounded weighted Laplacian,
/// which is symmetric positive definite on every component with a ground
/// ([`GroundedLaplacian`]).
pub fn dc_angles(
    n: usize,
    edges: &[(usize, usize, f64)],
    injection: &[f64],
    grounds: &[usize],
) -> Vec<f64> {
    dc_angles_from(n, edges, injection, grounds, None)
}

/// The grounded weighted Laplacian of a DC power flow, factorised once for
/// repeated solves (sparse Cholesky). Ground buses, and buses with no
/// branch, are left out and keep angle zero.
// reference edit: faer is left out; there is no such value, so `new` always
// answers None and every solve falls through to conjugate gradients.
pub enum GroundedLaplacian {}

impl GroundedLaplacian {
    /// `None` when the factorisation fails (a component without a ground,
    /// or a non-positive susceptance).
    pub fn new(_n: usize, _edges: &[(usize, usize, f64)], _grounds: &[usize]) -> Option<Self> {
        None
    }

    /// Angles for `injection` (per unit).
    pub fn solve(&self, _injection: &[f64]) -> Vec<f64> {
        match *self {}
    }
}

/// [`dc_angles`], by [`GroundedLaplacian`] when it factorises and otherwise
/// by Jacobi-preconditioned conjugate gradients started from `guess` (the
/// previous planning round's angles, which a round changes little).
fn dc_angles_from(
    n: usize,
    edges: &[(usize, usize, f64)],
    injection: &[f64],
    grounds: &[usize],
    guess: Option<&[f64]>,
) -> Vec<f64> {
    if let Some(l) = GroundedLaplacian::new(n, edges, grounds) {
        let x = l.solve(injection);
        if x.iter().all(|v| v.is_finite()) {
            return x;
        }
    }
    // reference edit: an angle that is not finite ends the plan.
    finite(dc_angles_cg(n, edges, injection, grounds, guess).angles)
}

/// How a solve ended, with its last figure.
// reference edit: reported; the published solver returns the angles alone.
#[derive(Clone, Copy, Debug, PartialEq)]
pub enum End {
    /// The residual norm is small enough, or the right side's norm is zero.
    Settled(f64),
    /// `dq` is not above zero.
    NoDescent(f64),
    /// Every step was taken; the last residual norm.
    Spent(f64),
}

/// The angles of one solve, how often `x` was moved, and how the solve ended.
// reference edit: reported, as above.
#[derive(Clone, Debug, PartialEq)]
pub struct Solve {
    pub angles: Vec<f64>,
    pub moves: u32,
    pub end: End,
}

// reference edit: public, and answers a `Solve`.
pub fn dc_angles_cg(
    n: usize,
    edges: &[(usize, usize, f64)],
    injection: &[f64],
    grounds: &[usize],
    guess: Option<&[f64]>,
) -> Solve {
    let mut grounded = vec![false; n];
    for &g in grounds {
        grounded[g] = true;
    }
    let mut diag = vec![0.0; n];
    for &(a, b, w) in edges {
        diag[a] += w;
        diag[b] += w;
    }
    let apply = |x: &[f64], y: &mut [f64]| {
        y.iter_mut().for_each(|v| *v = 0.0);
        for &(a, b, w) in edges {
            let d = w * (x[a] - x[b]);
            y[a] += d;
            y[b] -= d;
        }
        for i in 0..n {
            if grounded[i] {
                y[i] = 0.0;
            }
        }
    };
    let precondition = |r: &[f64], z: &mut [f64]| {
        for i in 0..n {
            z[i] = if grounded[i] || diag[i] <= 0.0 {
                0.0
            } else {
                r[i] / diag[i]
            };
        }
    };
    let dot = |u: &[f64], v: &[f64]| u.iter().zip(v).map(|(a, b)| a * b).sum::<f64>();

    let b: Vec<f64> = (0..n)
        .map(|i| if grounded[i] { 0.0 } else { injection[i] })
        .collect();
    let norm0 = dot(&b, &b).sqrt();
    let mut x = match guess {
        Some(g) if g.len() == n => (0..n)
            .map(|i| if grounded[i] { 0.0 } else { g[i] })
            .collect(),
        _ => vec![0.0; n],
    };
    seen_if(norm0.is_infinite(), Branch::AnglesNormInfinite); // reference edit
    if norm0 == 0.0 {
        seen(Branch::AnglesZeroNorm); // reference edit
        seen_if(b.iter().any(|&p| p != 0.0), Branch::AnglesNormUnderflows); // reference edit
        return Solve {
            angles: vec![0.0; n],
            moves: 0,
            end: End::Settled(0.0),
        }; // reference edit: answers a `Solve`
    }
    let mut r = vec![0.0; n];
    apply(&x, &mut r);
    for i in 0..n {
        r[i] = b[i] - r[i];
    }
    let norm = dot(&r, &r).sqrt(); // reference edit: kept to be reported
    if norm <= 1e-11 * norm0 {
        seen(Branch::AnglesSettledAtOnce); // reference edit
        return Solve {
            angles: x,
            moves: 0,
            end: End::Settled(norm),
        }; // reference edit: answers a `Solve`
    }
    let mut moves = 0; // reference edit: counted
    let mut end = End::Spent(norm); // reference edit: reported
    let mut z = vec![0.0; n];
    precondition(&r, &mut z);
    let mut d = z.clone();
    let mut rz = dot(&r, &z);
    let mut q = vec![0.0; n];
    let max_iterations = 50 * n + 100;
    for _ in 0..max_iterations {
        apply(&d, &mut q);
        let dq = dot(&d, &q);
        if dq <= 0.0 {
            seen_if(moves == 0, Branch::AnglesNoDescentAtOnce); // reference edit
            seen_if(moves > 0, Branch::AnglesNoDescentLater); // reference edit
            end = End::NoDescent(dq); // reference edit
            break;
        }
        let alpha = rz / dq;
        for i in 0..n {
            x[i] += alpha * d[i];
            r[i] -= alpha * q[i];
        }
        moves += 1; // reference edit
        let norm = dot(&r, &r).sqrt(); // reference edit: kept to be reported
        end = End::Spent(norm); // reference edit
        if norm <= 1e-11 * norm0 {
            seen(Branch::AnglesSettledLater); // reference edit
            end = End::Settled(norm); // reference edit
            break;
        }
        precondition(&r, &mut z);
        let rz_next = dot(&r, &z);
        let beta = rz_next / rz;
        rz = rz_next;
        for i in 0..n {
            d[i] = z[i] + beta * d[i];
        }
    }
    seen_if(matches!(end, End::Spent(_)), Branch::AnglesSpent); // reference edit
    Solve {
        angles: x,
        moves,
        end,
    } // reference edit: answers a `Solve`
}

/// Series susceptance of a circuit, per unit: `x / (r² + x²)`, the formula
/// the engine's DC model uses.
fn susceptance(design: &CircuitDesign) -> f64 {
    design.x_pu / (design.r_pu * design.r_pu + design.x_pu * design.x_pu)
}

/// Corridor susceptances (per unit, all circuits) and planning-case bus
/// angles for the given circuit counts and per-bus net injections (MW).
fn planning_angles(
    n: usize,
    designs: &[CircuitDesign],
    circuits: &[u32],
    injection_mw: &[f64],
    grounds: &[usize],
) -> (Vec<(usize, usize, f64)>, Vec<f64>) {
    let edges: Vec<(usize, usize, f64)> = designs
        .iter()
        .zip(circuits)
        .map(|(d, &k)| (d.from, d.to, susceptance(d) * k as f64))
        .collect();
    let p: Vec<f64> = injection_mw.iter().map(|v| v / BASE_MVA).collect();
    let theta = dc_angles(n, &edges, &p, grounds);
    (edges, theta)
}

/// One planning round's DC case: corridor susceptances `(a, b, pu)`, bus
/// angles (radians) and planned flows (MW).
struct PlanningCase {
    edges: Vec<(usize, usize, f64)>,
    theta: Vec<f64>,
    flows: Vec<f64>,
}

/// The planning case of one round, the angles started from the previous
/// round's.
fn planning_state(
    n: usize,
    designs: &[CircuitDesign],
    circuits: &[u32],
    injection_mw: &[f64],
    grounds: &[usize],
    guess: Option<&[f64]>,
) -> PlanningCase {
    let edges: Vec<(usize, usize, f64)> = designs
        .iter()
        .zip(circuits)
        .map(|(d, &k)| (d.from, d.to, susceptance(d) * k as f64))
        .collect();
    let p: Vec<f64> = injection_mw.iter().map(|v| v / BASE_MVA).collect();
    let theta = dc_angles_from(n, &edges, &p, grounds, guess);
    let flows = edges
        .iter()
        .map(|&(a, b, w)| w * (theta[a] - theta[b]) * BASE_MVA)
        .collect();
    PlanningCase {
        edges,
        theta,
        flows: finite(flows), // reference edit: a flow that is not finite ends the plan
    }
}

/// Planned flow per corridor (MW, from `design.from` to `design.to`) for the
/// given circuit counts and per-bus net injections (MW).
fn corridor_flows(
    n: usize,
    designs: &[CircuitDesign],
    circuits: &[u32],
    injection_mw: &[f64],
    grounds: &[usize],
) -> Vec<f64> {
    let (edges, theta) = planning_angles(n, designs, circuits, injection_mw, grounds);
    let flows = edges
        .iter()
        .map(|&(a, b, w)| w * (theta[a] - theta[b]) * BASE_MVA)
        .collect();
    finite(flows) // reference edit: a flow that is not finite ends the plan
}

/// Circuits one corridor may hold. A hierarchical plan cannot raise a
/// subtransmission corridor to another level, so below 100 kV it may build
/// up to six: a heavily loaded 60–70 kV path is reinforced by more and
/// heavier circuits on its right of way (reconductoring), not by a new
/// voltage. Modelling choice.
fn circuit_cap(promote: bool, kv: f64) -> u32 {
    if !promote && kv < crate::hierarchy::SUBTRANSMISSION_KV {
        SUBTRANSMISSION_MAX_CIRCUITS
    } else {
        MAX_CIRCUITS_PER_CORRIDOR
    }
}

/// A corridor's own cap in place of the usual one; 0 is none.
// reference edit: document 02, K5
fn own_or(own: u32, usual: u32) -> u32 {
    if own > 0 {
        own
    } else {
        usual
    }
}

/// [`circuit_cap`] below 100 kV in a hierarchical plan.
const SUBTRANSMISSION_MAX_CIRCUITS: u32 = 6;

/// Plan the circuits of every corridor for the economic dispatch at peak
/// load: promote the ends of corridors too heavy for their voltage class,
/// add circuits (or larger banks) until no circuit runs above the
/// utilisation target, stiffen islands whose angle spread is too wide, and
/// fill up to `branch_target` circuits where the planned flow is heaviest.
/// Promotion climbs `levels` and, when expanding, the levels of `above`
/// (highest first; the region's higher levels in service): a corridor that
/// would need more than [`MAX_CIRCUITS_PER_CORRIDOR`] circuits raises its
/// ends instead of stacking more, and one with no higher level left keeps
/// the cap and is reported. Returns the final circuit designs (one per
/// corridor) and the plan.
#[allow(clippy::too_many_arguments)]
pub fn plan_corridors(
    buses: &mut [DraftBus],
    levels: &[f64],
    above: &[f64],
    corridors: &mut [Corridor],
    draws: &[CorridorDraw],
    generators: &[DraftGenerator],
    branch_target: usize,
    mode: PlanMode,
    serving: bool, // reference edit
) -> (Vec<CircuitDesign>, CorridorPlan) {
    let expand = mode != PlanMode::Observe;
    let promote = mode == PlanMode::Expand;
    let n = buses.len();
    // Electrical components of the corridor graph; each balances on its own.
    let mut uf = UnionFind::new(n);
    for c in corridors.iter() {
        uf.union(c.a, c.b);
    }
    let component: Vec<usize> = (0..n).map(|i| uf.find(i)).collect();
    let mut roots: Vec<usize> = component.clone();
    roots.sort_unstable();
    roots.dedup();
    let mut dispatch = vec![0.0; generators.len()];
    let mut grounds = Vec::with_capacity(roots.len());
    for &root in &roots {
        let members: Vec<usize> = (0..generators.len())
            .filter(|&k| component[generators[k].bus] == root)
            .collect();
        let demand: f64 = (0..n)
            .filter(|&i| component[i] == root)
            .map(|i| buses[i].load_mw)
            .sum();
        let units: Vec<(f64, f64, f64, f64)> = members
            .iter()
            .map(|&k| {
                let g = &generators[k];
                (g.pmin_mw, g.pmax_mw, g.c1, g.c2)
            })
            .collect();
        let mut outputs = economic_dispatch(&units, demand); // reference edit
        if serving {
            serve_unmet(&units, demand, &mut outputs); // reference edit
        }
        for (&k, pg) in members.iter().zip(outputs) {
            dispatch[k] = pg;
        }
        // Ground on the component's reference generator when it has one.
        let ground = members
            .iter()
            .find(|&&k| generators[k].slack)
            .map(|&k| generators[k].bus)
            .unwrap_or(root);
        grounds.push(ground);
    }
    let mut injection: Vec<f64> = buses.iter().map(|b| -b.load_mw).collect();
    for (g, pg) in generators.iter().zip(&dispatch) {
        injection[g.bus] += pg;
    }
    let mut circuits: Vec<u32> = corridors.iter().map(|c| c.circuits.max(1)).collect();
    let initial: usize = circuits.iter().map(|&k| k as usize).sum();

    // The voltage ladder: the modelled levels and, when expanding, the higher
    // levels above them. Tiers index the ladder, so they shift by the number
    // of higher levels while those are available.
    let above: Vec<f64> = if promote {
        above
            .iter()
            .copied()
            .filter(|&kv| levels.first().is_some_and(|&top| kv > top + 1e-6))
            .collect()
    } else {
        Vec::new()
    };
    let extra = above.len();
    let extended = extra > 0;
    let ladder: Vec<f64> = above.iter().chain(levels).copied().collect();
    for bus in buses.iter_mut() {
        bus.tier += extra;
    }

    // 1. Voltage class by power and distance.
    let mut bank_floor = vec![0.0; corridors.len()];
    let mut designs = design_circuits(buses, corridors, generators, draws);
    let mut promoted = 0usize;
    for _ in 1..if promote { ladder.len() } else { 1 } {
        let flows = corridor_flows(n, &designs, &circuits, &injection, &grounds);
        let mut raise: Vec<Option<usize>> = vec![None; n];
        for (k, c) in corridors.iter().enumerate() {
            let d = &designs[k];
            let line_capacity = PLANNING_UTILISATION * d.line_rate * d.rate_spread;
            let two_lines = UPGRADE_CIRCUITS as f64 * line_capacity; // reference edit
            seen_if(flows[k].abs() == two_lines, Branch::FlowOfTwoLines); // reference edit
            if flows[k].abs() > UPGRADE_CIRCUITS as f64 * line_capacity {
                mark_raise(&mut raise, buses, c);
            }
        }
        let moved = raise_buses(buses, corridors, &raise, &ladder);
        if moved == 0 {
            seen(Branch::PassWithoutRaise); // reference edit
            break;
        }
        seen(Branch::RaiseBeforeRounds); // reference edit
        promoted += moved;
        designs = redesign(buses, corridors, generators, draws, &bank_floor);
    }

    // 2. Capacity and stiffening, repeated until both hold: stiffening moves
    //    flow, so capacity is checked again after it.
    let buses_of: Vec<Vec<usize>> = roots
        .iter()
        .map(|&root| (0..n).filter(|&i| component[i] == root).collect())
        .collect();
    let mut upsized = vec![false; corridors.len()];
    let mut stiffening = 0usize;
    let mut rounds = 0;
    let mut converged = corridors.is_empty() || !expand;
    let mut warm: Option<Vec<f64>> = None;
    while expand && rounds < PLANNING_MAX_ROUNDS && !corridors.is_empty() {
        rounds += 1;
        let PlanningCase {
            edges,
            theta,
            flows,
        } = planning_state(
            n,
            &designs,
            &circuits,
            &injection,
            &grounds,
            warm.as_deref(),
        );
        warm = Some(theta.clone());
        let mut added = false;
        let mut capped = false;
        let mut raise: Vec<Option<usize>> = vec![None; n];
        for (c, d) in designs.iter_mut().enumerate() {
            // Rating the corridor needs so the planning flow stays at the
            // utilisation target.
            let required = flows[c].abs() / PLANNING_UTILISATION;
            let have = circuits[c] as f64 * d.rate_a; // reference edit
            seen_if(required == have, Branch::NeedExactlyMet); // reference edit
            if required <= circuits[c] as f64 * d.rate_a {
                continue;
            }
            if let Some(mva) = d.transformer_mva.filter(|&m| m < d.line_rate) {
                let per_circuit = required / circuits[c] as f64 / d.rate_spread;
                let next = ((per_circuit / TRANSFORMER_SIZE_STEP_MVA).ceil()
                    * TRANSFORMER_SIZE_STEP_MVA)
                    .min(d.line_rate);
                let once = required / (circuits[c] as f64 * d.rate_spread); // reference edit
                seen_if(
                    (once / TRANSFORMER_SIZE_STEP_MVA).ceil()
                        != (per_circuit / TRANSFORMER_SIZE_STEP_MVA).ceil(),
                    Branch::BankByOneDivision,
                ); // reference edit
                seen_if(next <= mva, Branch::BankNotLarger); // reference edit
                if next > mva {
                    seen_if(next < d.line_rate, Branch::BankEnlargedByStep); // reference edit
                    seen_if(next == d.line_rate, Branch::BankEnlargedToLine); // reference edit
                    d.set_transformer_mva(next);
                    bank_floor[c] = next;
                    upsized[c] = true;
                    added = true;
                    if required <= circuits[c] as f64 * d.rate_a {
                        seen(Branch::BankEnough); // reference edit
                        continue;
                    }
                    seen(Branch::BankNotEnough); // reference edit
                }
            }
            let need = (required / d.rate_a).ceil() as u32;
            if promote && need > UPGRADE_CIRCUITS && mark_raise(&mut raise, buses, &corridors[c]) {
                // A higher level carries it on fewer circuits.
                seen(Branch::MarkedInRound); // reference edit
                continue;
            }
            let own = corridors[c].cap; // reference edit
            let most = own_or(own, circuit_cap(promote, d.kv)); // reference edit: its own cap
            seen_if(need > most && own > 0, Branch::AboveOwnCap); // reference edit
            seen_if(need > most && most == 4, Branch::AboveCapOfFour); // reference edit
            seen_if(need > most && most == 6, Branch::AboveCapOfSix); // reference edit
            seen_if(need == u32::MAX, Branch::NeedSaturated); // reference edit
            capped |= need > most;
            let need = need.min(most);
            if need > circuits[c] {
                seen(Branch::CircuitsAdded); // reference edit
                circuits[c] = need;
                added = true;
            }
        }
        let moved = raise_buses(buses, corridors, &raise, &ladder);
        if moved > 0 {
            seen(Branch::RaiseInRounds); // reference edit
            seen_if(added, Branch::RaiseBesideAddition); // reference edit
            promoted += moved;
            designs = redesign(buses, corridors, generators, draws, &bank_floor);
            continue;
        }
        if added {
            seen_if(rounds == PLANNING_MAX_ROUNDS, Branch::LastRoundAdds); // reference edit
            continue;
        }
        // Capacity holds; stiffen any island whose spread is too wide (the
        // round's angles still describe the unchanged network). Stiffening
        // raises buses within the requested levels until STIFFENING_HV_SHARE
        // of them sit at the highest one; only then, like capacity, does it
        // raise onto the level the plan may add above them, under the same
        // share. It adds circuits only while the network stays within its
        // branch budget.
        let mut stiffen_raise: Vec<Option<usize>> = vec![None; n];
        let hv_budget = (STIFFENING_HV_SHARE * n as f64).floor() as usize;
        let requested_top = extra;
        let stiffen_top =
            if extended && buses.iter().filter(|b| b.tier <= requested_top).count() >= hv_budget {
                0
            } else {
                requested_top
            };
        seen_if(stiffen_top < requested_top, Branch::StiffeningTopIsAdded); // reference edit
        let budget = (STIFFENING_BRANCH_BUDGET * n as f64).floor() as usize;
        let mut total: usize = circuits.iter().map(|&k| k as usize).sum();
        let mut hv = buses.iter().filter(|b| b.tier <= stiffen_top).count();
        let mut spread_ok = true;
        let mut stiffened = false;
        let mut ends: Vec<usize> = Vec::new(); // reference edit: to count ends met again
        for (ci, members) in buses_of.iter().enumerate() {
            // A hierarchical network is not held to the spread: its radial
            // subtransmission and long tapped lines carry angle that no
            // transfer path does (the California Test System spans about
            // 140° at 200 kV and above at its own peak dispatch), and the AC
            // power flow is the check that matters.
            if !promote {
                continue;
            }
            let root = roots[ci];
            let lead = *members
                .iter()
                .max_by(|&&a, &&b| theta[a].partial_cmp(&theta[b]).unwrap().then(b.cmp(&a)))
                .expect("a component has a bus");
            let lag = *members
                .iter()
                .min_by(|&&a, &&b| theta[a].partial_cmp(&theta[b]).unwrap().then(a.cmp(&b)))
                .expect("a component has a bus");
            let excess = theta[lead] - theta[lag] - MAX_ANGLE_SPREAD_RAD;
            seen_if(excess == 0.0, Branch::SpreadExactlyAllowed); // reference edit
            if excess <= 0.0 {
                continue;
            }
            let as_far = |i: usize, j: usize| i != j && theta[i] == theta[j]; // reference edit
            seen_if(members.iter().any(|&i| as_far(i, lead)), Branch::LeadTie); // reference edit
            seen_if(members.iter().any(|&i| as_far(i, lag)), Branch::LagTie); // reference edit
            seen(Branch::SpreadTooWide); // reference edit
            spread_ok = false;
            if rounds > STIFFENING_ROUNDS {
                // The remaining rounds belong to capacity.
                seen(Branch::TooLateToStiffen); // reference edit
                continue;
            }
            seen_if(hv >= hv_budget, Branch::VoltageBudgetSpent); // reference edit
            seen_if(total >= budget, Branch::BranchBudgetSpent); // reference edit
            seen_if(stiffened, Branch::SeveralIslandsStiffened); // reference edit

            // The spread is (e_lead - e_lag)ᵀ L⁻¹ p; one more circuit on
            // corridor k (Δb = its circuit susceptance) narrows it by about
            // Δb · Δθ_k · Δφ_k with φ = L⁻¹ (e_lead - e_lag).
            let mut unit = vec![0.0; n];
            unit[lead] = 1.0;
            unit[lag] = -1.0;
            let phi = dc_angles(n, &edges, &unit, &grounds);
            let mut gains: Vec<(f64, usize)> = corridors
                .iter()
                .enumerate()
                .filter(|(k, c)| {
                    component[c.a] == root
                        // reference edit: its own cap
                        && ((circuits[*k] < own_or(c.cap, MAX_CIRCUITS_PER_CORRIDOR)
                            && total < budget)
                            || (promote
                                && buses[c.a].tier.min(buses[c.b].tier) > stiffen_top
                                && hv < hv_budget))
                })
                .map(|(k, _)| {
                    let d = &designs[k];
                    let gain =
                        susceptance(d) * (theta[d.from] - theta[d.to]) * (phi[d.from] - phi[d.to]);
                    (gain, k)
                })
                .filter(|(gain, _)| *gain > 0.0)
                .collect();
            gains.sort_by(|a, b| b.0.partial_cmp(&a.0).unwrap().then(a.1.cmp(&b.1)));
            // Enough of the best corridors to cover the excess to first
            // order, never more than the batch share of the island.
            let in_component = corridors.iter().filter(|c| component[c.a] == root).count();
            let cap = ((STIFFENING_BATCH_SHARE * in_component as f64).ceil() as usize).max(1);
            let mut covered = 0.0;
            let batch = gains
                .iter()
                .take(cap)
                .take_while(|(gain, _)| {
                    let take = covered < excess;
                    covered += gain;
                    take
                })
                .count()
                .max(1);
            seen_if(gains.is_empty(), Branch::NoCandidate); // reference edit
            seen_if(batch < gains.len().min(cap), Branch::BatchCoversExcess); // reference edit
            seen_if(batch == cap && cap < gains.len(), Branch::BatchAtItsShare); // reference edit
            let tie = batch < gains.len() && gains[batch - 1].0 == gains[batch].0; // reference edit
            seen_if(tie, Branch::GainTie); // reference edit
            for &(_, k) in gains.iter().take(batch) {
                let d = &mut designs[k];
                if d.transformer_mva.is_some_and(|m| m < d.line_rate) {
                    seen(Branch::StiffenedByBank); // reference edit
                    let full = d.line_rate;
                    d.set_transformer_mva(full);
                    bank_floor[k] = full;
                    upsized[k] = true;
                } else if promote
                    && hv < hv_budget
                    && mark_raise_to(&mut stiffen_raise, buses, &corridors[k], stiffen_top)
                {
                    let c = &corridors[k];
                    seen(Branch::StiffenedByRaise); // reference edit
                    let at_top = |end: usize| stiffen_raise[end].is_some_and(|t| t <= stiffen_top); // reference edit
                    seen_if(!at_top(c.a) && !at_top(c.b), Branch::StiffenedBelowTop); // reference edit
                    for end in [c.a, c.b].into_iter().filter(|&end| at_top(end)) {
                        seen_if(ends.contains(&end), Branch::EndCountedAgain);
                        ends.push(end);
                    } // reference edit: counted
                    hv += [c.a, c.b]
                        .iter()
                        .filter(|&&end| {
                            buses[end].tier > stiffen_top
                                && stiffen_raise[end].is_some_and(|t| t <= stiffen_top)
                        })
                        .count();
                    // A higher requested level narrows the angle more than
                    // another circuit at this one (230 to 500 kV about
                    // sevenfold per circuit) and adds no branch.
                    // reference edit: its own cap
                } else if circuits[k] < own_or(corridors[k].cap, MAX_CIRCUITS_PER_CORRIDOR)
                    && total < budget
                {
                    seen(Branch::StiffenedByCircuit); // reference edit
                    let past = circuits[k] >= MAX_CIRCUITS_PER_CORRIDOR; // reference edit
                    seen_if(past, Branch::StiffenedAboveFour); // reference edit
                    circuits[k] += 1;
                    stiffening += 1;
                    total += 1;
                } else {
                    seen(Branch::StiffenedByNothing); // reference edit
                    continue;
                }
                stiffened = true;
            }
        }
        let moved = raise_buses(buses, corridors, &stiffen_raise, &ladder);
        if moved > 0 {
            promoted += moved;
            designs = redesign(buses, corridors, generators, draws, &bank_floor);
        }
        if stiffened {
            seen_if(rounds == STIFFENING_ROUNDS, Branch::LastStiffening); // reference edit
            continue;
        }
        seen_if(capped, Branch::EndedCapped); // reference edit
        seen_if(!spread_ok, Branch::EndedWide); // reference edit
        seen_if(spread_ok && !capped, Branch::EndedConverged); // reference edit
        seen_if(rounds == PLANNING_MAX_ROUNDS, Branch::LastRoundEnds); // reference edit
        converged = spread_ok && !capped;
        break;
    }
    let mut flows = corridor_flows(n, &designs, &circuits, &injection, &grounds);
    let capacity_total: usize = circuits.iter().map(|&k| k as usize).sum::<usize>() - stiffening;

    // 3. Fill to the requested branch count, heaviest planned loading first.
    let mut filler = 0usize;
    // reference edit: the counts and the order are kept under Expand, also
    // where nothing is filled; the order was made inside the next `if`.
    let mut before = vec![0; corridors.len()];
    let mut order: Vec<usize> = vec![0; corridors.len()];
    if promote {
        before.clone_from(&circuits);
        let loading = |c: usize, k: u32| flows[c].abs() / (k as f64 * designs[c].rate_a);
        order = (0..corridors.len()).collect();
        order.sort_by(|&i, &j| {
            loading(j, circuits[j])
                .partial_cmp(&loading(i, circuits[i]))
                .unwrap()
                .then(designs[j].kv.partial_cmp(&designs[i].kv).unwrap())
                .then(
                    designs[i]
                        .length_km
                        .partial_cmp(&designs[j].length_km)
                        .unwrap(),
                )
                .then(i.cmp(&j))
        });
    }
    if promote && capacity_total + stiffening < branch_target && !corridors.is_empty() {
        let mut total = capacity_total + stiffening;
        let mut cursor = 0usize;
        let mut idle = 0usize;
        while total < branch_target && idle < order.len() {
            let c = order[cursor % order.len()];
            cursor += 1;
            // reference edit: its own cap
            if circuits[c] >= own_or(corridors[c].cap, MAX_CIRCUITS_PER_CORRIDOR) {
                seen(Branch::FillingPassesOver); // reference edit
                let few = circuits[c] < MAX_CIRCUITS_PER_CORRIDOR; // reference edit
                seen_if(few, Branch::FillingPassesOwnCap); // reference edit
                idle += 1;
                continue;
            }
            let past = circuits[c] >= MAX_CIRCUITS_PER_CORRIDOR; // reference edit
            seen_if(past, Branch::FilledAboveFour); // reference edit
            idle = 0;
            circuits[c] += 1;
            total += 1;
            filler += 1;
        }
        seen_if(total == branch_target, Branch::FilledToTarget); // reference edit
        seen_if(total < branch_target, Branch::FilledToCaps); // reference edit
        flows = corridor_flows(n, &designs, &circuits, &injection, &grounds);
    }

    let (_, theta) = planning_angles(n, &designs, &circuits, &injection, &grounds);
    let spread_max = buses_of
        .iter()
        .map(|members| {
            let hi = members
                .iter()
                .map(|&i| theta[i])
                .fold(f64::NEG_INFINITY, f64::max);
            let lo = members
                .iter()
                .map(|&i| theta[i])
                .fold(f64::INFINITY, f64::min);
            hi - lo
        })
        .fold(0.0, f64::max);
    let mut max_loading: f64 = 0.0;
    let mut overloaded = 0;
    let mut capped_corridors = 0;
    for (c, d) in designs.iter().enumerate() {
        let l = flows[c].abs() / (circuits[c] as f64 * d.rate_a);
        max_loading = max_loading.max(l);
        if l > 1.0 + 1e-9 {
            seen(Branch::OverloadedCorridor); // reference edit
            overloaded += 1;
        }
        let need = flows[c].abs() / PLANNING_UTILISATION / d.rate_a;
        let once = flows[c].abs() / (PLANNING_UTILISATION * d.rate_a); // reference edit
        let most = circuits[c] as f64 + 1e-9; // reference edit
        seen_if(l == 1.0 + 1e-9, Branch::LoadingAtTheLimit); // reference edit
        seen_if(need == most, Branch::NeedAtTheLimit); // reference edit
        seen_if((once > most) != (need > most), Branch::CapByOneDivision); // reference edit
        if expand
            // reference edit: its own cap
            && circuits[c] >= own_or(corridors[c].cap, circuit_cap(promote, designs[c].kv))
            && need > circuits[c] as f64 + 1e-9
        {
            seen(Branch::CappedCorridor); // reference edit
            seen_if(corridors[c].cap > 0, Branch::CappedByOwnCap); // reference edit
            capped_corridors += 1;
        }
    }
    // Drop the higher levels no bus took, so tiers count from the highest
    // level in use.
    let unused = buses
        .iter()
        .map(|b| b.tier)
        .min()
        .unwrap_or(extra)
        .min(extra);
    for bus in buses.iter_mut() {
        bus.tier -= unused;
    }
    seen_if(unused < extra, Branch::LevelsAdded); // reference edit
    seen_if(unused > 0, Branch::LevelsUnused); // reference edit
    let added_levels_kv = above[unused..].to_vec();
    for (corridor, &k) in corridors.iter_mut().zip(&circuits) {
        corridor.circuits = k;
    }
    let max_parallel_circuits = circuits.iter().copied().max().unwrap_or(0);
    let plan = CorridorPlan {
        circuits,
        dispatch,
        corridor_flow: flows,
        grounds,
        rounds,
        converged,
        promoted_buses: promoted,
        capacity_circuits: capacity_total - initial,
        upsized_transformers: upsized.iter().filter(|&&u| u).count(),
        stiffening_circuits: stiffening,
        angle_spread_rad: spread_max, // reference edit: in radians
        filler_circuits: filler,
        before, // reference edit
        order,  // reference edit
        max_loading,
        overloaded_corridors: overloaded,
        added_levels_kv,
        max_parallel_circuits,
        capped_corridors,
        angles: theta,
    };
    (designs, plan)
}
