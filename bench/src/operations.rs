//! The single operations besides angles: dispatch, leaders, placement. Each answer is compared in full, every place of the
//! result slices by its bits, refusals with their index among them.

use crate::draws::Draws;
use crate::ports::{dispatch_columns, leaders, AnswerSaid, PlacementColumns, PlacementSaid};
use crate::{least, report};
use reference::electrical::generators::DraftGenerator;
use reference::electrical::planning;
use reference::electrical::reactive;
use reference::harness::operations::{self, Support};
use reference::harness::refusal::Refusal;
use reference::site::DraftBus;
use reference::topology::Corridor;
use std::hint::black_box;

/// The refusal's number and index, or zeros.
fn said<T>(answer: &Result<T, Refusal>) -> AnswerSaid {
    match answer {
        Err(r) => AnswerSaid {
            refusal: r.number,
            index: r.index,
        },
        Ok(_) => AnswerSaid {
            refusal: 0,
            index: 0,
        },
    }
}

/// Figures as the bits that are compared; every zero is one.
fn bits(figures: &[f64]) -> Vec<u64> {
    figures.iter().map(|&v| (v + 0.0).to_bits()).collect()
}

// ---- dispatch

type Units = Vec<(f64, f64, f64, f64)>;

/// So many units of different costs and limits, and half of what they can give.
fn units(count: usize) -> (Units, f64) {
    let mut draws = Draws::new(count);
    let units: Units = (0..count)
        .map(|_| {
            let most = 20.0 + 80.0 * draws.next();
            let (c1, c2) = (10.0 + 20.0 * draws.next(), 0.01 + 0.1 * draws.next());
            (0.1 * most, most, c1, c2)
        })
        .collect();
    let demand = units.iter().map(|u| u.1).sum::<f64>() / 2.0;
    (units, demand)
}

fn dispatch_agrees(what: &str, units: &Units, demand: f64) -> AnswerSaid {
    let mut mw = vec![7.0; units.len()];
    let port = dispatch_columns(&columns_of(units), demand, &mut mw);
    let rust = operations::dispatch(units, demand);
    assert_eq!(port, said(&rust), "{what}: what is said");
    let theirs = rust.unwrap_or(vec![7.0; units.len()]);
    assert_eq!(bits(&mw), bits(&theirs), "{what}: a unit differs");
    port
}

fn compare_dispatch(count: usize, runs: usize) {
    let (units, demand) = units(count);
    let what = format!("dispatch, units {count}");
    let answer = dispatch_agrees(&what, &units, demand);
    assert_eq!(answer.refusal, 0, "{what}: refused");
    let columns: Vec<Vec<f64>> = columns_of(&units);
    let mut mw = vec![0.0; count];
    let times = least(
        runs,
        || {
            black_box(dispatch_columns(&columns, demand, &mut mw));
        },
        || {
            black_box(planning::economic_dispatch(&units, demand));
        },
    );
    report(&what, "", times);
}

fn columns_of(units: &Units) -> Vec<Vec<f64>> {
    vec![
        units.iter().map(|u| u.0).collect(),
        units.iter().map(|u| u.1).collect(),
        units.iter().map(|u| u.2).collect(),
        units.iter().map(|u| u.3).collect(),
    ]
}

// ---- networks

/// Corridors as their ends and km.
struct Net {
    buses: usize,
    ends: Vec<(usize, usize)>,
    km: Vec<f64>,
}

/// A tree of so many buses, each of which hangs on one that `parent` names; then corridors between any two buses, up to
/// `corridors`. Each is as long as `most_km` at most.
fn network(
    buses: usize,
    corridors: usize,
    most_km: f64,
    parent: fn(&mut Draws, usize) -> usize,
) -> Net {
    let mut draws = Draws::new(buses + corridors);
    let mut net = Net {
        buses,
        ends: Vec::new(),
        km: Vec::new(),
    };
    for i in 1..buses {
        net.ends.push((parent(&mut draws, i), i));
    }
    while net.ends.len() < corridors {
        let ends = (draws.below(buses), draws.below(buses));
        if ends.0 != ends.1 {
            net.ends.push(ends);
        }
    }
    net.km = net.ends.iter().map(|_| most_km * draws.next()).collect();
    net
}

/// One of the three buses before.
fn near(draws: &mut Draws, i: usize) -> usize {
    i - 1 - draws.below(3).min(i - 1)
}

/// Any bus before.
fn any(draws: &mut Draws, i: usize) -> usize {
    draws.below(i)
}

/// The first bus.
fn centre(_: &mut Draws, _: usize) -> usize {
    0
}

fn column(net: &Net, end: fn(&(usize, usize)) -> usize) -> Vec<u32> {
    net.ends.iter().map(|e| end(e) as u32).collect()
}

// ---- leaders

fn leaders_agree(what: &str, net: &Net) -> AnswerSaid {
    let (a, b) = (column(net, |e| e.0), column(net, |e| e.1));
    let mut leader = vec![7; net.buses];
    let port = leaders(&a, &b, &mut leader);
    let rust = operations::accepted_leaders(net.buses, &net.ends);
    assert_eq!(port, said(&rust), "{what}: what is said");
    let theirs = rust.unwrap_or(vec![7; net.buses]);
    assert!(
        leader.iter().map(|&i| i as usize).eq(theirs),
        "{what}: a leader differs"
    );
    port
}

fn compare_leaders(what: &str, net: &Net, runs: usize) {
    let what = format!("leaders, {what}");
    assert_eq!(leaders_agree(&what, net).refusal, 0, "{what}: refused");
    let (a, b) = (column(net, |e| e.0), column(net, |e| e.1));
    let mut leader = vec![0; net.buses];
    let times = least(
        runs,
        || {
            black_box(leaders(&a, &b, &mut leader));
        },
        || {
            black_box(operations::leaders(net.buses, net.ends.iter().copied()));
        },
    );
    report(&what, &format!("{} corridors", net.ends.len()), times);
}

// ---- placement

/// A load of 1 MW and more at each bus, some of them by a weight, and so many generators, evenly spread.
fn support(net: &Net, generators: usize) -> Support {
    let mut draws = Draws::new(generators);
    Support {
        buses: (0..net.buses)
            .map(|bus| (1.0 + draws.next(), [1.0, 1.25][bus % 2]))
            .collect(),
        corridors: net
            .ends
            .iter()
            .zip(&net.km)
            .map(|(&(a, b), &km)| (a, b, km))
            .collect(),
        generator_buses: (0..generators)
            .map(|g| g * net.buses / generators)
            .collect(),
    }
}

fn placement_agrees(what: &str, q: &Support) -> PlacementSaid {
    let n = q.buses.len();
    let (mut buses, mut mvars) = (vec![7; n], vec![7.0; n]);
    let port = columns(q).place(&mut buses, &mut mvars);
    let rust = operations::placement(q);
    let answer = said(&rust);
    let count = rust.as_ref().map_or(0, Vec::len);
    let expected = PlacementSaid {
        refusal: answer.refusal,
        index: answer.index,
        count,
    };
    assert_eq!(port, expected, "{what}: what is said");
    let left = if answer.refusal == 0 {
        (vec![0; n], vec![0.0; n])
    } else {
        (vec![7; n], vec![7.0; n])
    };
    let (mut stand, mut sized) = left;
    for (k, &(bus, mvar)) in rust.iter().flatten().enumerate() {
        stand[k] = bus as u32;
        sized[k] = mvar;
    }
    assert_eq!(buses, stand, "{what}: a condenser stands elsewhere");
    assert_eq!(bits(&mvars), bits(&sized), "{what}: a size differs");
    port
}

fn columns(q: &Support) -> PlacementColumns {
    PlacementColumns {
        reading: q.buses.iter().map(|bus| bus.0).collect(),
        weight: q.buses.iter().map(|bus| bus.1).collect(),
        a: q.corridors.iter().map(|c| c.0 as u32).collect(),
        b: q.corridors.iter().map(|c| c.1 as u32).collect(),
        km: q.corridors.iter().map(|c| c.2).collect(),
        generators: q.generator_buses.iter().map(|&g| g as u32).collect(),
    }
}

/// The published code's tables.
fn draft(q: &Support) -> (Vec<DraftBus>, Vec<Corridor>, Vec<DraftGenerator>) {
    let bus = |&(reading, weight): &(f64, f64)| DraftBus {
        tier: 0,
        base_kv: 0.0,
        load_mw: reading * weight,
    };
    let corridor = |&(a, b, length_km): &(usize, usize, f64)| Corridor {
        a,
        b,
        kv: 0.0,
        length_km,
        circuits: 1,
        cap: 0,
    };
    let generator = |&bus: &usize| DraftGenerator {
        bus,
        pmax_mw: 0.0,
        pmin_mw: 0.0,
        qmax_mvar: 0.0,
        c2: 0.0,
        c1: 0.0,
        slack: false,
        condenser: false,
    };
    (
        q.buses.iter().map(bus).collect(),
        q.corridors.iter().map(corridor).collect(),
        q.generator_buses.iter().map(generator).collect(),
    )
}

fn compare_placement(
    what: &str,
    net: &Net,
    generators: usize,
    counts: (usize, usize),
    runs: usize,
) {
    let q = support(net, generators);
    let what = format!("placement, {what}, generators {generators}");
    let answer = placement_agrees(&what, &q);
    assert_eq!(answer.refusal, 0, "{what}: refused");
    assert!(
        counts.0 <= answer.count && answer.count <= counts.1,
        "{what}: {} condensers",
        answer.count
    );
    let columns = columns(&q);
    let (rust_buses, rust_corridors, rust_generators) = draft(&q);
    let n = net.buses;
    let (mut buses, mut mvars) = (vec![0; n], vec![0.0; n]);
    let times = least(
        runs,
        || {
            black_box(columns.place(&mut buses, &mut mvars));
        },
        || {
            black_box(reactive::place_voltage_support(
                &rust_buses,
                &rust_corridors,
                &rust_generators,
            ));
        },
    );
    report(&what, &format!("{} placed", answer.count), times);
}

/// Refusals with their index.
fn refusals() {
    let (mut few, demand) = units(3);
    few[1].0 = -1.0;
    let unit = dispatch_agrees("a limit below zero", &few, demand);
    assert_eq!((unit.refusal, unit.index), (5, 1));
    let (many, demand) = units(129);
    assert_eq!(dispatch_agrees("too many units", &many, demand).refusal, 2);
    let mut net = network(8, 9, 1.0, near);
    net.ends[4].1 = 8;
    let corridor = leaders_agree("an end past the buses", &net);
    assert_eq!((corridor.refusal, corridor.index), (6, 4));
    let corridor = placement_agrees("an end past the buses", &support(&net, 1));
    assert_eq!((corridor.refusal, corridor.index), (6, 4));
}

pub fn run() {
    refusals();
    for (count, runs) in [(1, 4000), (16, 1000), (128, 300)] {
        compare_dispatch(count, runs);
    }
    compare_leaders("2 buses", &network(2, 1, 1.0, near), 4000);
    compare_leaders("64 buses, a mesh", &network(64, 128, 1.0, any), 2000);
    compare_leaders("256 buses, a tree", &network(256, 256, 1.0, near), 1000);
    compare_leaders(
        "256 buses, no corridor",
        &network(256, 256, 1.0, near).apart(),
        1000,
    );
    compare_leaders("128 buses, a mesh", &network(128, 256, 1.0, any), 1000);
    // Lengths of which none, few and many buses are far.
    let none = (0, 0);
    for generators in [1, 16, 128] {
        compare_placement(
            "256 buses, a tree",
            &network(256, 256, 0.1, near),
            generators,
            none,
            1000,
        );
        compare_placement(
            "256 buses, a bush",
            &network(256, 256, 0.1, any),
            generators,
            none,
            1000,
        );
        compare_placement(
            "256 buses, a star",
            &network(256, 256, 0.1, centre),
            generators,
            none,
            1000,
        );
        compare_placement(
            "128 buses, a mesh",
            &network(128, 256, 0.1, any),
            generators,
            none,
            1000,
        );
    }
    compare_placement(
        "256 buses, one far",
        &one_far(network(256, 256, 0.1, near)),
        1,
        (1, 1),
        1000,
    );
    compare_placement(
        "256 buses, far apart",
        &network(256, 256, 20.0, near),
        1,
        (2, 255),
        200,
    );
    compare_placement(
        "256 buses, all far",
        &network(256, 256, 10_000.0, near),
        1,
        (100, 255),
        50,
    );
    compare_placement("2 buses", &network(2, 1, 1.0, near), 1, none, 4000);
    compare_placement(
        "2 buses, far",
        &one_far(network(2, 1, 1.0, near)),
        1,
        (1, 1),
        4000,
    );
}

/// The same with the last bus of the tree behind 150 km.
fn one_far(mut net: Net) -> Net {
    let last = net.buses - 1;
    for (ends, km) in net.ends.iter().zip(&mut net.km) {
        if ends.0 == last || ends.1 == last {
            *km = 150.0;
        }
    }
    net
}

impl Net {
    /// The same buses with no corridor.
    fn apart(mut self) -> Self {
        self.ends.clear();
        self.km.clear();
        self
    }
}
