//! Solves by conjugate gradients: 8, 64 and 256 buses, ordinary ones and ones with a bus that cannot settle, of which the largest spends all its steps.

use crate::draws::Draws;
use crate::ports::{dc_angles, AnglesSaid, Request};
use crate::{least, report};
use reference::electrical::planning::{dc_angles_cg, End, Solve};
use reference::harness::operations::{angles, Network};
use reference::harness::refusal::Refusal;
use std::hint::black_box;

/// A feeder with some loops, grounded at bus 0: bus i hangs on an earlier one, and every fourth bus has a second line.
fn feeder(n: usize, least_weight: f64) -> Request {
    let mut draws = Draws::new(n);
    let mut q = Request {
        from: Vec::new(),
        to: Vec::new(),
        weight: Vec::new(),
        injection: vec![0.0; n],
        grounds: vec![0],
        guess: vec![0.0; n],
    };
    for i in 1..n {
        let near = i - 1 - ((draws.next() * 3.0) as usize).min(i - 1);
        q.from.push(near as u32);
        q.to.push(i as u32);
        q.weight.push(least_weight + 20.0 * draws.next());
        if i % 4 == 0 && q.from.len() < 256 && n < 256 {
            q.from.push((draws.next() * i as f64) as u32);
            q.to.push(i as u32);
            q.weight.push(least_weight + 20.0 * draws.next());
        }
        q.injection[i] = 0.3 * (draws.next() - 0.7);
    }
    q
}

/// The same with an injection at a bus that corridors of no susceptance alone join: it never settles.
fn hopeless(n: usize) -> Request {
    let mut q = feeder(n, 0.5);
    let last = q.weight.len() - 1;
    q.weight[last] = 0.0;
    q
}

fn network(q: &Request) -> Network {
    Network {
        edges: (0..q.from.len())
            .map(|k| (q.from[k] as usize, q.to[k] as usize, q.weight[k]))
            .collect(),
        injection: q.injection.clone(),
        grounds: q.grounds.iter().map(|&g| g as usize).collect(),
        guess: None,
    }
}

/// The reference build's answer as the port says it.
fn said(answer: &Result<Solve, Refusal>) -> AnglesSaid {
    match answer {
        Err(refusal) => AnglesSaid {
            refusal: refusal.number,
            index: refusal.index,
            steps: 0,
            ended: 0,
            figure: 0.0,
        },
        Ok(solve) => {
            let (ended, figure) = match solve.end {
                End::Settled(norm) => (1, norm),
                End::NoDescent(dq) => (2, dq),
                End::Spent(norm) => (3, norm),
            };
            AnglesSaid {
                refusal: 0,
                index: 0,
                steps: solve.moves as usize,
                ended,
                figure,
            }
        }
    }
}

/// Both answers alike, and the angles of an answered request; the answer.
fn agree(what: &str, q: &Request) -> AnglesSaid {
    let n = q.injection.len();
    let (mut result, mut work) = (vec![0.0; n], vec![0.0; 8 * n]);
    let port = dc_angles(q, &mut result, &mut work);
    let rust = angles(&network(q));
    assert_eq!(port, said(&rust), "{what}: what is said");
    for (ours, theirs) in result.iter().zip(rust.iter().flat_map(|s| &s.angles)) {
        assert!(
            ours == theirs || ours.to_bits() == theirs.to_bits(),
            "{what}: an angle differs"
        );
    }
    port
}

fn compare(what: &str, q: &Request, runs: usize) -> usize {
    let steps = agree(what, q).steps;
    let n = q.injection.len();
    let Network { edges, grounds, .. } = network(q);
    let (mut result, mut work) = (vec![0.0; n], vec![0.0; 8 * n]);
    let times = least(
        runs,
        || {
            black_box(dc_angles(q, &mut result, &mut work));
        },
        || {
            black_box(dc_angles_cg(n, &edges, &q.injection, &grounds, None));
        },
    );
    report(what, &format!("{steps} steps"), times);
    steps
}

/// The additions that each step of a solve waits for: two sums over the buses, each in order, as the scope has it, d·q and then
/// r·z. This makes those additions and nothing else; what begins a sum waits for the sum before it, as in a solve.
fn additions(n: usize, steps: usize) {
    let terms = vec![1e-3; n];
    let mut dq = 0.0;
    for _ in 0..steps {
        for term in black_box(&terms) {
            dq += term;
        }
        let mut rz = -dq;
        for term in black_box(&terms) {
            rz -= term;
        }
        dq = -rz;
    }
    black_box(dq);
}

/// One line: the least time of those additions alone.
fn bound(n: usize, steps: usize, runs: usize) {
    let (alone, _) = least(runs, || additions(n, steps), || ());
    println!(
        "{:<54} {:>11} {:>12.1}",
        format!("angles, {n} buses, settles, the additions in order"),
        format!("{steps} steps"),
        alone.as_nanos() as f64 / 1000.0
    );
}

/// Each way to end, and refusals with an index.
fn answers() {
    let mut q = feeder(8, 0.5);
    assert_eq!(agree("settled", &q).ended, 1);
    assert_eq!(agree("steps spent", &hopeless(256)).ended, 3);
    q.weight.fill(-1.0);
    assert_eq!(agree("no descent", &q).ended, 2);
    q.grounds = vec![0, 8];
    let ground = agree("a ground past the buses", &q);
    assert_eq!((ground.refusal, ground.index), (10, 1));
    q.to[3] = 8;
    let end = agree("an end past the buses", &q);
    assert_eq!((end.refusal, end.index), (10, 3));
}

pub fn run() {
    answers();
    for (n, runs) in [(8, 4000), (64, 800), (256, 200)] {
        let steps = compare(
            &format!("angles, {n} buses, settles"),
            &feeder(n, 0.5),
            runs,
        );
        bound(n, steps, runs);
        compare(
            &format!("angles, {n} buses, uneven weights"),
            &feeder(n, 1e-4),
            runs,
        );
    }
    for (n, runs) in [(8, 1000), (64, 60), (256, 12)] {
        compare(
            &format!("angles, {n} buses, a bus that cannot settle"),
            &hopeless(n),
            runs,
        );
    }
}
