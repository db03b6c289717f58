//! Requests for angles.

use super::leaders::pair;
use super::{Family, Words};
use crate::electrical::planning::dc_angles_cg;
use crate::generate::random::Random;
use crate::harness::answers::MOST_COUNT;
use crate::harness::operations::Network;
use crate::harness::tables::{MOST_BUSES, MOST_CORRIDORS};

pub const FAMILIES: &[Family] = &[
    ("small", small),
    ("small", small),
    ("middling", middling),
    ("large", large),
    LARGEST,
    ("one bus", one_bus),
    ("no bus", no_bus),
    ("zero right side", zero_right_side),
    ("injection at the ground only", at_the_ground),
    ("norm underflows", underflowing_norm),
    ("norm overflows", overflowing_norm),
    ("guess is the answer", answer_as_guess),
    ("guess near the answer", near_guess),
    ("any guess", any_guess),
    ("island without a ground", no_ground),
    ("balanced island without a ground", balanced_island),
    ("several islands", several_islands),
    ("self loops", self_loops),
    ("parallel edges", parallel_edges),
    ("negative weights", negative_weights),
    ("zero weights", zero_weights),
    ("infinite or NaN weight", wild_weight),
    ("infinite or NaN injection", wild_injection),
    ("infinite or NaN guess", wild_guess),
    ("angles overflow", overflowing_angles),
    ("weights far apart", far_apart),
    ("weights far apart, large", far_apart_large),
    ("whole numbers", whole_numbers),
    ("repeated grounds", repeated_grounds),
    ("every bus a ground", all_grounds),
    ("an end past the buses", far_end),
    ("a ground past the buses", far_ground),
    ("ends and grounds past the buses", far_both),
    ("count past its bound", past_bounds),
    ("any bits", any_bits),
];

pub const LARGEST: Family = ("256 buses, 256 edges", largest);

fn ask(network: &Network) -> Words {
    let words = Words::new("ANG")
        .whole(network.injection.len())
        .whole(network.edges.len())
        .whole(network.grounds.len())
        .whole(usize::from(network.guess.is_some()))
        .each(&network.edges, |words, &(a, b, w)| {
            words.whole(a).whole(b).figure(w)
        })
        .each(&network.injection, |words, &p| words.figure(p))
        .each(&network.grounds, |words, &ground| words.whole(ground));
    words.each(network.guess.iter().flatten(), |words, &angle| {
        words.figure(angle)
    })
}

/// A tree over the buses, then corridors between any two.
fn mesh(random: &mut Random, buses: usize, edges: usize) -> Vec<(usize, usize, f64)> {
    let tree = (1..buses)
        .map(|i| (i, i - 1 - random.below(i.min(4))))
        .collect::<Vec<_>>();
    let ends = tree.into_iter().take(edges).collect::<Vec<_>>();
    let rest = edges - ends.len();
    let more = (0..rest).map(|_| pair(random, buses)).collect::<Vec<_>>();
    ends.into_iter()
        .chain(more)
        .map(|(a, b)| (a, b, random.log_between(0.5, 200.0)))
        .collect()
}

/// A grounded mesh with loads and generation everywhere.
fn network(random: &mut Random, buses: usize, edges: usize) -> Network {
    Network {
        edges: mesh(random, buses, edges),
        injection: (0..buses).map(|_| random.between(-3.0, 3.0)).collect(),
        grounds: vec![random.below(buses)],
        guess: None,
    }
}

fn small_network(random: &mut Random) -> Network {
    let buses = random.from_to(2, 8);
    let edges = random.from_to(buses - 1, buses + 3);
    network(random, buses, edges)
}

fn small(random: &mut Random) -> Words {
    ask(&small_network(random))
}

fn middling(random: &mut Random) -> Words {
    let buses = random.from_to(9, 60);
    let edges = random.from_to(buses - 1, 2 * buses);
    ask(&network(random, buses, edges))
}

fn large(random: &mut Random) -> Words {
    let buses = random.from_to(100, MOST_BUSES);
    let edges = random.from_to(buses - 1, MOST_CORRIDORS);
    ask(&network(random, buses, edges))
}

fn largest(random: &mut Random) -> Words {
    ask(&network(random, MOST_BUSES, MOST_CORRIDORS))
}

fn one_bus(random: &mut Random) -> Words {
    let loops = random.below(3);
    ask(&Network {
        edges: (0..loops)
            .map(|_| (0, 0, random.between(0.0, 2.0)))
            .collect(),
        injection: vec![random.pick(&[0.0, 1.0, -2.5])],
        grounds: vec![0; random.below(3)],
        guess: random.once_in(2).then(|| vec![1.0]),
    })
}

fn no_bus(random: &mut Random) -> Words {
    ask(&Network {
        edges: vec![(0, 0, 1.0); random.pick(&[0, 0, 1])],
        injection: vec![],
        grounds: vec![0; random.pick(&[0, 0, 1])],
        guess: random.once_in(2).then(Vec::new),
    })
}

fn zero_right_side(random: &mut Random) -> Words {
    let mut network = small_network(random);
    network.injection.fill(random.pick(&[0.0, -0.0]));
    network.guess = guess_of(random, network.injection.len());
    ask(&network)
}

fn at_the_ground(random: &mut Random) -> Words {
    let mut network = small_network(random);
    network.injection.fill(0.0);
    network.injection[network.grounds[0]] = random.between(-5.0, 5.0);
    network.guess = guess_of(random, network.injection.len());
    ask(&network)
}

/// Squares below the smallest figure: the computed norm is zero, or a little
/// above where the injections are not quite as small.
fn underflowing_norm(random: &mut Random) -> Words {
    let mut network = small_network(random);
    let small = random.pick(&[1e-200, 1e-163, 1e-162, 1e-161, 1e-155]);
    for p in &mut network.injection {
        *p *= small;
    }
    network.guess = guess_of(random, network.injection.len());
    ask(&network)
}

/// Squares above the largest figure: inf ≤ 1e-11 · inf settles at once.
fn overflowing_norm(random: &mut Random) -> Words {
    let mut network = small_network(random);
    let large = random.pick(&[1e153, 1e154, 1e155, 1e200]);
    for p in &mut network.injection {
        *p *= large;
    }
    network.guess = guess_of(random, network.injection.len());
    ask(&network)
}

fn guess_of(random: &mut Random, buses: usize) -> Option<Vec<f64>> {
    let guess = (0..buses).map(|_| random.between(-1.0, 1.0)).collect();
    random.once_in(2).then_some(guess)
}

/// What a solve from zero answers.
fn solved(network: &Network) -> Vec<f64> {
    let Network {
        edges,
        injection,
        grounds,
        ..
    } = network;
    dc_angles_cg(injection.len(), edges, injection, grounds, None).angles
}

fn answer_as_guess(random: &mut Random) -> Words {
    let mut network = small_network(random);
    network.guess = Some(solved(&network));
    ask(&network)
}

fn near_guess(random: &mut Random) -> Words {
    let mut network = small_network(random);
    let mut guess = solved(&network);
    let error = random.log_between(1e-13, 1e-2);
    for angle in &mut guess {
        *angle += error * random.between(-1.0, 1.0);
    }
    network.guess = Some(guess);
    ask(&network)
}

fn any_guess(random: &mut Random) -> Words {
    let mut network = small_network(random);
    let scale = random.pick(&[1.0, 1e3, 1e10, 1e100]);
    let buses = network.injection.len();
    network.guess = Some(
        (0..buses)
            .map(|_| scale * random.between(-1.0, 1.0))
            .collect(),
    );
    ask(&network)
}

fn no_ground(random: &mut Random) -> Words {
    let mut network = small_network(random);
    network.grounds.clear();
    network.guess = guess_of(random, network.injection.len());
    ask(&network)
}

/// Nothing is left over, so a solve without a ground may settle.
fn balanced_island(random: &mut Random) -> Words {
    let mut network = small_network(random);
    network.grounds.clear();
    let buses = network.injection.len();
    network.injection.fill(0.0);
    for _ in 0..random.from_to(1, 3) {
        let (from, to) = pair(random, buses);
        let p = random.from_to(1, 9) as f64;
        network.injection[from] += p;
        network.injection[to] -= p;
    }
    ask(&network)
}

/// Two to four meshes side by side, each with its own ground or none.
fn several_islands(random: &mut Random) -> Words {
    let mut all = Network {
        edges: vec![],
        injection: vec![],
        grounds: vec![],
        guess: None,
    };
    for _ in 0..random.from_to(2, 4) {
        let first = all.injection.len();
        let island = small_network(random);
        let shifted = island
            .edges
            .iter()
            .map(|&(a, b, w)| (a + first, b + first, w));
        all.edges.extend(shifted);
        all.injection.extend(island.injection);
        if !random.once_in(6) {
            all.grounds.push(island.grounds[0] + first);
        }
    }
    ask(&all)
}

fn self_loops(random: &mut Random) -> Words {
    let mut network = small_network(random);
    for _ in 0..random.from_to(1, 3) {
        let bus = random.below(network.injection.len());
        let place = random.below(network.edges.len() + 1);
        let weight = random.pick(&[1.0, 50.0, 1e6, -1.0]);
        network.edges.insert(place, (bus, bus, weight));
    }
    ask(&network)
}

fn parallel_edges(random: &mut Random) -> Words {
    let mut network = small_network(random);
    for _ in 0..random.from_to(1, 4) {
        let place = random.below(network.edges.len());
        let (a, b, w) = network.edges[place];
        let turned = random.pick(&[(a, b, w), (b, a, w), (b, a, 2.0 * w)]);
        network.edges.push(turned);
    }
    ask(&network)
}

/// Changes the weight of one or more edges.
fn with_weights(random: &mut Random, weight: fn(&mut Random) -> f64) -> Words {
    let mut network = small_network(random);
    for _ in 0..random.from_to(1, 3) {
        let place = random.below(network.edges.len());
        network.edges[place].2 = weight(random);
    }
    network.guess = guess_of(random, network.injection.len());
    ask(&network)
}

fn negative_weights(random: &mut Random) -> Words {
    with_weights(random, |random| -random.log_between(1e-3, 300.0))
}

fn zero_weights(random: &mut Random) -> Words {
    with_weights(random, |random| random.pick(&[0.0, -0.0]))
}

fn wild(random: &mut Random) -> f64 {
    random.pick(&[f64::INFINITY, f64::NEG_INFINITY, f64::NAN, -f64::NAN])
}

fn wild_weight(random: &mut Random) -> Words {
    with_weights(random, wild)
}

fn wild_injection(random: &mut Random) -> Words {
    let mut network = small_network(random);
    let bus = random.below(network.injection.len());
    network.injection[bus] = wild(random);
    ask(&network)
}

/// A guess at a ground is ignored, so such a request may be answered. Where the
/// norm overflows the guess is the answer, and its fault keeps its place.
fn wild_guess(random: &mut Random) -> Words {
    let mut network = small_network(random);
    let buses = network.injection.len();
    let mut guess = vec![0.0; buses];
    if random.once_in(2) {
        for p in &mut network.injection {
            *p *= 1e200;
        }
        guess[random.below(buses)] = f64::INFINITY;
        guess[random.below(buses)] = f64::NEG_INFINITY;
    } else {
        let ground = network.grounds[0];
        let any = random.below(buses);
        guess[random.pick(&[ground, any])] = wild(random);
    }
    network.guess = Some(guess);
    ask(&network)
}

fn overflowing_angles(random: &mut Random) -> Words {
    let mut network = small_network(random);
    for edge in &mut network.edges {
        edge.2 *= random.pick(&[1e-308, 1e-310, 1e-300]);
    }
    for p in &mut network.injection {
        *p *= random.pick(&[1.0, 1e5, 1e10]);
    }
    ask(&network)
}

/// A chain whose weights differ by many powers of ten is slow to settle.
fn chain(random: &mut Random, buses: usize, spread: f64) -> Network {
    Network {
        edges: (1..buses)
            .map(|i| (i - 1, i, random.log_between(1.0 / spread, spread)))
            .collect(),
        injection: (0..buses).map(|_| random.between(-1.0, 1.0)).collect(),
        grounds: vec![random.pick(&[0, buses - 1])],
        guess: None,
    }
}

fn far_apart(random: &mut Random) -> Words {
    let buses = random.from_to(3, 20);
    let spread = random.log_between(1e2, 1e12);
    ask(&chain(random, buses, spread))
}

fn far_apart_large(random: &mut Random) -> Words {
    let buses = random.from_to(100, MOST_BUSES);
    let spread = random.log_between(1e2, 1e6);
    ask(&chain(random, buses, spread))
}

fn whole_numbers(random: &mut Random) -> Words {
    let mut network = small_network(random);
    for edge in &mut network.edges {
        edge.2 = random.from_to(1, 4) as f64;
    }
    for p in &mut network.injection {
        *p = random.below(7) as f64 - 3.0;
    }
    ask(&network)
}

fn repeated_grounds(random: &mut Random) -> Words {
    let mut network = small_network(random);
    let buses = network.injection.len();
    for _ in 0..random.from_to(1, 5) {
        let bus = random.below(buses);
        let again = network.grounds[0];
        network.grounds.push(random.pick(&[bus, again]));
    }
    ask(&network)
}

fn all_grounds(random: &mut Random) -> Words {
    let mut network = small_network(random);
    network.grounds = random.shuffled(network.injection.len());
    network.guess = guess_of(random, network.injection.len());
    ask(&network)
}

fn spoil_edge(random: &mut Random, network: &mut Network) {
    let buses = network.injection.len();
    let past = random.pick(&[buses, buses + 3, 999_999_999]);
    let place = random.below(network.edges.len());
    let (a, b, w) = network.edges[place];
    network.edges[place] = random.pick(&[(past, b, w), (a, past, w), (past, past, w)]);
}

fn spoil_ground(random: &mut Random, network: &mut Network) {
    let buses = network.injection.len();
    let good = random.below(3);
    network.grounds = (0..good).map(|_| random.below(buses)).collect();
    network
        .grounds
        .push(random.pick(&[buses, buses + 9, 65_536]));
    network.grounds.push(random.below(buses));
}

fn far_end(random: &mut Random) -> Words {
    let mut network = small_network(random);
    spoil_edge(random, &mut network);
    ask(&network)
}

fn far_ground(random: &mut Random) -> Words {
    let mut network = small_network(random);
    spoil_ground(random, &mut network);
    ask(&network)
}

fn far_both(random: &mut Random) -> Words {
    let mut network = small_network(random);
    spoil_ground(random, &mut network);
    spoil_edge(random, &mut network);
    ask(&network)
}

fn past_bounds(random: &mut Random) -> Words {
    let mut network = small_network(random);
    let past = random.pick(&[MOST_BUSES + 1, 300, MOST_COUNT]);
    match random.below(3) {
        0 => network.injection.resize(past, 0.0),
        1 => network.edges.resize(past, (0, 1, 1.0)),
        _ => network.grounds.resize(past, 999),
    }
    ask(&network)
}

fn any_bits(random: &mut Random) -> Words {
    let buses = random.from_to(1, 4);
    let edges = random.below(5);
    ask(&Network {
        edges: (0..edges)
            .map(|_| {
                (
                    random.below(buses),
                    random.below(buses),
                    random.any_figure(),
                )
            })
            .collect(),
        injection: (0..buses).map(|_| random.any_figure()).collect(),
        grounds: vec![random.below(buses)],
        guess: random
            .once_in(2)
            .then(|| (0..buses).map(|_| random.any_figure()).collect()),
    })
}
