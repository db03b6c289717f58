//! Reactive power planning. Reactive power does not travel far: moving it
//! over a loaded line costs a voltage magnitude gradient and adds `I²X`
//! losses, so transmission planners supply it where it is consumed, with
//! capacitor banks at load substations and shunt reactors where lightly
//! loaded high voltage lines charge the system (Kundur, *Power System
//! Stability and Control*, 1994, §11.2; Taylor, *Power System Voltage
//! Stability*, 1994).
// reference edit: of this file only the distances and the synchronous
// condensers are kept; `ac_angles` and the shunt plan are left out.

use std::cmp::Ordering;
use std::collections::BinaryHeap;

use crate::electrical::generators::DraftGenerator;
use crate::electrical::params::{MIN_SHUNT_BANK_MVAR, VOLTAGE_SUPPORT_Q_SHARE};
use crate::site::DraftBus;
use crate::topology::Corridor;
use crate::watch::{seen, seen_if, Branch}; // reference edit: counts branches

/// Corridor-km from every bus to its nearest bus in `sources` (multi-source
/// Dijkstra), and that source; `f64::INFINITY` for a bus no source reaches.
pub(crate) fn distance_to_sources(
    n: usize,
    corridors: &[Corridor],
    sources: &[usize],
) -> (Vec<f64>, Vec<usize>) {
    #[derive(PartialEq)]
    struct Item(f64, usize, usize);
    impl Eq for Item {}
    impl Ord for Item {
        fn cmp(&self, other: &Self) -> Ordering {
            other
                .0
                .total_cmp(&self.0)
                .then_with(|| other.1.cmp(&self.1))
        }
    }
    impl PartialOrd for Item {
        fn partial_cmp(&self, other: &Self) -> Option<Ordering> {
            Some(self.cmp(other))
        }
    }
    let mut adj: Vec<Vec<(usize, f64)>> = vec![Vec::new(); n];
    for c in corridors {
        adj[c.a].push((c.b, c.length_km));
        adj[c.b].push((c.a, c.length_km));
    }
    let mut dist = vec![f64::INFINITY; n];
    let mut from = vec![usize::MAX; n];
    let mut heap = BinaryHeap::new();
    for &s in sources {
        if dist[s] > 0.0 {
            dist[s] = 0.0;
            from[s] = s;
            heap.push(Item(0.0, s, s));
        }
    }
    while let Some(Item(d, i, src)) = heap.pop() {
        if d > dist[i] {
            continue;
        }
        for &(j, km) in &adj[i] {
            let nd = d + km;
            if nd < dist[j] {
                dist[j] = nd;
                from[j] = src;
                heap.push(Item(nd, j, src));
            }
        }
    }
    (dist, from)
}

/// Synchronous condensers for remote load pockets: while some loaded bus lies
/// more than `VOLTAGE_SUPPORT_KM` of corridor from the nearest generator or
/// condenser, the farthest one gets a condenser. Each is sized to
/// [`VOLTAGE_SUPPORT_Q_SHARE`] of the load it then lies nearest to. A pocket
/// fed over long lines with no machine of its own has nothing to hold its
/// voltage, and its AC power flow can stall with the lines well inside their
/// ratings; the condenser gives it the local voltage control real remote
/// systems have. Returns the condensers, to append to the generators.
pub fn place_voltage_support(
    buses: &[DraftBus], // reference edit: no bus is changed
    corridors: &[Corridor],
    generators: &[DraftGenerator],
) -> Vec<DraftGenerator> {
    let n = buses.len();
    let mut sources: Vec<usize> = generators.iter().map(|g| g.bus).collect();
    let mut placed: Vec<usize> = Vec::new();
    loop {
        let (dist, _) = distance_to_sources(n, corridors, &sources);
        let farthest = (0..n)
            .filter(|&i| buses[i].load_mw > 0.0 && dist[i].is_finite())
            .max_by(|&a, &b| dist[a].total_cmp(&dist[b]).then(b.cmp(&a)));
        let as_far = |i: usize, j: usize| i != j && buses[j].load_mw > 0.0 && dist[j] == dist[i]; // reference edit
        let tie = |i: usize| dist[i] > 100.0 && (0..n).any(|j| as_far(i, j)); // reference edit
        seen_if(farthest.is_some_and(tie), Branch::PlaceTie); // reference edit
        match farthest {
            Some(i) if dist[i] > crate::tuning::tuning().voltage_support_km => {
                sources.push(i);
                placed.push(i);
            }
            _ => break,
        }
    }
    seen_if(placed.len() > 1, Branch::PlaceSeveral); // reference edit
    if placed.is_empty() {
        seen(Branch::PlaceNothing); // reference edit
        return Vec::new();
    }
    let (_, from) = distance_to_sources(n, corridors, &sources);
    let mut served = vec![0.0; n];
    for i in 0..n {
        let lost = from[i] == usize::MAX && buses[i].load_mw > 0.0; // reference edit
        seen_if(lost, Branch::PlaceUnreachable); // reference edit
        if from[i] != usize::MAX {
            served[from[i]] += buses[i].load_mw;
        }
    }
    placed
        .into_iter()
        .map(|bus| {
            let q = (VOLTAGE_SUPPORT_Q_SHARE * served[bus]).max(MIN_SHUNT_BANK_MVAR);
            seen_if(q == MIN_SHUNT_BANK_MVAR, Branch::PlaceSmallest); // reference edit
            seen_if(q > MIN_SHUNT_BANK_MVAR, Branch::PlaceByShare); // reference edit

            // reference edit: the bus's kind and annotation are left out.
            DraftGenerator {
                bus,
                pmax_mw: 0.0,
                pmin_mw: 0.0,
                qmax_mvar: q,
                c2: 0.0,
                c1: 0.0,
                slack: false,
                condenser: true,
            }
        })
        .collect()
}
