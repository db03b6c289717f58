//! Document 02's K9, from its words: all networks of 1 to 3 buses, one after another.

use crate::harness::tables::{Bus, Case, CorridorRecord, Generator, Line};

/// The pairs of buses that a bit stands for, the lowest first.
fn pairs(buses: usize) -> Vec<(u16, u16)> {
    let all = [(0, 1), (0, 2), (1, 2)];
    let there = |&(_, b): &(u16, u16)| usize::from(b) < buses;
    all.into_iter().filter(there).collect()
}

fn bit(number: usize, place: usize) -> bool {
    number >> place & 1 == 1
}

/// The network of so many buses whose corridors and loads are these binary
/// numbers. What the request does not name is as in case L.
fn network(buses: usize, corridors: usize, loads: usize) -> Case {
    let load = |bus| if bit(loads, bus) { 10.0 } else { 0.0 };
    let joined = pairs(buses).into_iter().enumerate();
    let corridors: Vec<_> = joined
        .filter(|&(pair, _)| bit(corridors, pair))
        .map(|(_, (a, b))| CorridorRecord {
            a,
            b,
            circuits: 1,
            length: 10.0,
            share: 1.0,
            ..CorridorRecord::default()
        })
        .collect();
    let row = Line {
        r: 0.0,
        x: 0.5,
        b: 0.0,
        rate: 100.0,
        basis: 0,
    };
    Case {
        mode: 2,
        target: 0,
        above: 0,
        ladder: vec![138.0],
        buses: (0..buses).map(|bus| Bus::plain(0, load(bus))).collect(),
        generators: vec![Generator {
            bus: 0,
            slack: 1,
            pmin: 0.0,
            pmax: 100.0,
            c1: 20.0,
            c2: 0.25,
        }],
        sheet: vec![row; corridors.len()],
        corridors,
    }
}

/// All of them: by buses, then by corridors, then by loads.
pub fn small_networks() -> Vec<Case> {
    let mut all = Vec::new();
    for buses in 1..=3 {
        for corridors in 0..1 << pairs(buses).len() {
            for loads in 0..1 << buses {
                all.push(network(buses, corridors, loads));
            }
        }
    }
    all
}
