//! Seeded seasons: case files that are handed to the season program one after
//! another.

use crate::generate::cases::{case_file, some_seed, weigh_some, WEIGHED};
use crate::generate::random::Random;
use crate::harness::case_file::{read_case, write_case, MOST_BYTES};
use crate::harness::tables::{Case, MOST_MODE};

/// The case files of a season, none longer than may be handed over.
pub struct Season {
    pub family: &'static str,
    pub files: Vec<Vec<u8>>,
}

/// The season of a seed; the seed chooses the family in turn. From [`WEIGHED`]
/// on every other case has weights.
pub fn season(seed: u64) -> Season {
    const FAMILIES: &[(&str, fn(&mut Random) -> Vec<Vec<u8>>)] = &[
        ("drafts of one network", |random| drafts(random, 12)),
        ("many drafts of one network", |random| drafts(random, 60)),
        ("drafts, strangers and damaged files", mixed),
        ("any files", any_files),
        ("one file", |random| drafts(random, 1)),
    ];
    let (family, make) = FAMILIES[(seed % FAMILIES.len() as u64) as usize];
    let mut random = Random::new(family, seed);
    let mut files = make(&mut random);
    if seed >= WEIGHED {
        weigh_some(&mut random, &mut files);
    }
    for file in &mut files {
        file.truncate(MOST_BYTES);
    }
    Season { family, files }
}

/// The files one behind another, each padded with zeros to full size; the
/// last one as it is where `short_last` says so.
pub fn as_blocks(files: &[Vec<u8>], short_last: bool) -> Vec<u8> {
    let mut input = Vec::new();
    for (place, file) in files.iter().enumerate() {
        input.extend_from_slice(file);
        if place + 1 < files.len() || !short_last {
            input.resize((place + 1) * MOST_BYTES, 0);
        }
    }
    input
}

/// Some case that can be read and is not large.
fn network(random: &mut Random) -> Case {
    loop {
        if let Ok(case) = read_case(&case_file(some_seed(random)).bytes) {
            if case.corridors.len() < 60 {
                return case;
            }
        }
    }
}

/// The network as another draft has it: the corridors stay as many.
fn draft_of(random: &mut Random, network: &Case) -> Case {
    let mut case = network.clone();
    case.mode = random.below(usize::from(MOST_MODE) + 1) as u8;
    case.target = random.below(1 + 5 * case.corridors.len()) as u32;
    let scale = random.between(0.2, 3.0);
    for bus in &mut case.buses {
        bus.reading *= scale;
    }
    for corridor in &mut case.corridors {
        if random.once_in(3) {
            corridor.circuits = random.below(9) as u8;
        }
    }
    case
}

fn drafts(random: &mut Random, most: usize) -> Vec<Vec<u8>> {
    let network = network(random);
    let count = random.from_to(1, most);
    (0..count)
        .map(|_| write_case(&draft_of(random, &network)))
        .collect()
}

/// Drafts of one network, among them cases of other counts and files that
/// are cut or changed in a byte.
fn mixed(random: &mut Random) -> Vec<Vec<u8>> {
    let mut files = drafts(random, 12);
    for _ in 0..random.from_to(1, 4) {
        let stranger = write_case(&network(random));
        files.insert(random.below(files.len() + 1), stranger);
    }
    for _ in 0..random.from_to(1, 3) {
        let file = random.below(files.len());
        let byte = random.below(files[file].len());
        if random.once_in(2) {
            files[file].truncate(byte);
        } else {
            files[file][byte] ^= 1 << random.below(8);
        }
    }
    files
}

fn any_files(random: &mut Random) -> Vec<Vec<u8>> {
    let count = random.from_to(0, 8);
    (0..count)
        .map(|_| case_file(some_seed(random)).bytes)
        .collect()
}
