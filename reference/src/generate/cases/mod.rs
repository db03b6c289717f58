//! Seeded case files. The seed chooses the family in turn, so that every run
//! of [`FAMILIES`] seeds in a row holds one file of each. From [`CAPPED`] on
//! the corridors have caps of their own, and there are [`CAP_FAMILIES`] too;
//! from [`WEIGHED`] on the buses have weights, and there are
//! [`WEIGHT_FAMILIES`] too.

mod caps;
mod damage;
mod edges;
mod faults;
pub mod moved;
mod networks;
pub mod padding;
pub mod pairs;
mod serving;
mod sketch;
mod stiffening;
mod weights;

use crate::generate::random::Random;
use crate::harness::case_file::{read_case, write_case};
use crate::harness::tables::{Case, SERVING};

/// How a file of a family is made.
enum Make {
    /// The unpadded file of a case.
    Case(fn(&mut Random) -> Case),
    /// A file that is no such thing; its turn counts the family's files.
    File(fn(&mut Random, usize, Extras) -> Vec<u8>),
}

/// What records have beside what document 01 gives them.
#[derive(Clone, Copy, Default)]
pub struct Extras {
    /// Corridors have caps of their own.
    capped: bool,
    /// Buses have weights.
    weighed: bool,
}

/// The case with what its file has beside.
fn with_extras(random: &mut Random, case: Case, extras: Extras) -> Case {
    let case = caps::with_caps(random, case, extras.capped);
    weights::with_weights(random, case, extras.weighed)
}

/// A case file and the family it comes from.
pub struct CaseFile {
    pub family: String,
    pub bytes: Vec<u8>,
}

/// Seeds from here on have own caps (document 02, K5).
pub const CAPPED: u64 = 1_000_000;

/// Seeds from here on have weights (document 02, K6), and every other run of
/// the families own caps too.
pub const WEIGHED: u64 = 2_000_000;

/// A range of seeds.
#[derive(Clone, Copy, PartialEq, Eq)]
enum Range {
    Plain,
    Capped,
    Weighed,
}

const RANGES: [Range; 3] = [Range::Plain, Range::Capped, Range::Weighed];

impl Range {
    /// A seed's range and its number in it.
    fn of(seed: u64) -> (Self, u64) {
        match seed {
            WEIGHED.. => (Self::Weighed, seed - WEIGHED),
            CAPPED.. => (Self::Capped, seed - CAPPED),
            _ => (Self::Plain, seed),
        }
    }

    fn extras(self, run: u64) -> Extras {
        Extras {
            capped: self == Self::Capped || self == Self::Weighed && run % 2 == 1,
            weighed: self == Self::Weighed,
        }
    }

    fn families(self) -> Families {
        let caps = if self == Self::Plain {
            &[]
        } else {
            CAP_FAMILIES
        };
        let weights = match self {
            Self::Weighed => WEIGHT_FAMILIES,
            _ => &[],
        };
        FAMILIES.iter().chain(caps).chain(weights).collect()
    }

    fn name(self, family: &str) -> String {
        let more = match self {
            Self::Plain => "",
            Self::Capped => ", own caps",
            Self::Weighed => ", weighed",
        };
        format!("{family}{more}")
    }
}

/// All families, the ones that deserve more files several times.
const FAMILIES: &[(&str, Make)] = &[
    ("small, Expand", Make::Case(networks::small_expand)),
    ("small, Reinforce", Make::Case(networks::small_reinforce)),
    ("small, Observe", Make::Case(networks::small_observe)),
    ("middling, Expand", Make::Case(networks::middling_expand)),
    (
        "middling, Reinforce",
        Make::Case(networks::middling_reinforce),
    ),
    ("middling, Observe", Make::Case(networks::middling_observe)),
    ("large", Make::Case(networks::large)),
    ("every count at its bound", Make::Case(networks::at_bounds)),
    ("heavy, Expand", Make::Case(networks::heavy_expand)),
    ("heavy, Expand", Make::Case(networks::heavy_expand)),
    ("heavy, Reinforce", Make::Case(networks::heavy_reinforce)),
    (
        "heavy subtransmission",
        Make::Case(networks::heavy_subtransmission),
    ),
    ("heavy on one level", Make::Case(networks::heavy_one_level)),
    ("rates in no order", Make::Case(networks::rates_in_no_order)),
    ("islands and isolated buses", Make::Case(networks::islands)),
    ("no corridor", Make::Case(networks::no_corridor)),
    ("no bus", Make::Case(networks::no_bus)),
    ("no generator", Make::Case(networks::no_generator)),
    ("whole numbers", Make::Case(networks::whole_numbers)),
    (
        "parallel corridors",
        Make::Case(networks::parallel_corridors),
    ),
    (
        "figures at their bounds",
        Make::Case(networks::figures_at_bounds),
    ),
    ("tiny loads", Make::Case(networks::tiny_loads)),
    ("filling to a target", Make::Case(networks::filling)),
    ("filling to the caps", Make::Case(networks::filling_to_caps)),
    ("filling with ties", Make::Case(networks::filling_ties)),
    ("extreme sheet", Make::Case(networks::extreme_sheet)),
    (
        "extreme sheet above",
        Make::Case(networks::extreme_sheet_above),
    ),
    ("needs past every u32", Make::Case(networks::huge_needs)),
    (
        "unit solve overflows",
        Make::Case(networks::overflowing_unit_solve),
    ),
    ("extreme costs", Make::Case(networks::extreme_costs)),
    ("banks", Make::Case(stiffening::banks)),
    ("bank after bank", Make::Case(stiffening::bank_after_bank)),
    ("bank after bank", Make::Case(stiffening::bank_after_bank)),
    ("raise in a round", Make::Case(stiffening::raise_in_a_round)),
    ("raise in a round", Make::Case(stiffening::raise_in_a_round)),
    (
        "bank after bank, then too late",
        Make::Case(stiffening::too_late),
    ),
    ("wide, by circuits", Make::Case(stiffening::by_circuits)),
    ("wide, by banks", Make::Case(stiffening::by_banks)),
    (
        "wide, banks, then raises",
        Make::Case(stiffening::banks_then_raises),
    ),
    ("wide, by raises", Make::Case(stiffening::by_raises)),
    (
        "wide, by raises below the top",
        Make::Case(stiffening::below_the_top),
    ),
    (
        "wide, by raises above the request",
        Make::Case(stiffening::above_the_request),
    ),
    (
        "wide, several islands",
        Make::Case(stiffening::several_islands),
    ),
    ("wide, budgets spent", Make::Case(stiffening::budgets_spent)),
    ("wide, large", Make::Case(stiffening::large)),
    (
        "wide, ends met again",
        Make::Case(stiffening::ends_met_again),
    ),
    (
        "wide, ends met again",
        Make::Case(stiffening::ends_met_again),
    ),
    ("wide, equal arms", Make::Case(stiffening::equal_arms)),
    ("wide, equal arms", Make::Case(stiffening::equal_arms)),
    ("edge of a circuit", Make::Case(edges::circuit)),
    ("edge of a raise", Make::Case(edges::raise)),
    ("edge of a bank", Make::Case(edges::bank)),
    ("edge of a bank's step", Make::Case(edges::bank_step)),
    ("edge of a cap", Make::Case(edges::cap)),
    ("edge of a rating", Make::Case(edges::rating)),
    ("edge of a need", Make::Case(edges::need)),
    ("edge of the spread", Make::Case(edges::spread)),
    ("refused: ladder", Make::Case(faults::ladder)),
    ("refused: bus", Make::Case(faults::bus)),
    ("refused: generator", Make::Case(faults::generator)),
    ("refused: corridor", Make::Case(faults::corridor)),
    ("refused: sheet row", Make::Case(faults::sheet_row)),
    ("refused: several faults", Make::Case(faults::several)),
    (
        "refused: costs of islands",
        Make::Case(faults::costs_of_islands),
    ),
    ("refused: counts", Make::File(damage::counts)),
    ("refused: small fields", Make::File(damage::small_fields)),
    ("refused: marks", Make::File(damage::marks)),
    ("padded", Make::File(damage::padded)),
    ("padded past the end", Make::File(damage::padded_past)),
    ("not zero after the end", Make::File(damage::after_the_end)),
    ("cut", Make::File(damage::cut)),
    ("flipped", Make::File(damage::flipped)),
    ("small file, cut in turn", Make::File(damage::cut_in_turn)),
    ("small file, cut in turn", Make::File(damage::cut_in_turn)),
    (
        "small file, flipped in turn",
        Make::File(damage::flipped_in_turn),
    ),
    (
        "small file, flipped in turn",
        Make::File(damage::flipped_in_turn),
    ),
    ("any figures", Make::File(damage::any_figures)),
    ("any bytes", Make::File(damage::any_bytes)),
];

/// Families that only caps have.
const CAP_FAMILIES: &[(&str, Make)] = &[
    ("refused: cap", Make::File(caps::past_its_bound)),
    ("CO made CP, or back", Make::File(caps::made_the_other)),
    ("cut in a corridor", Make::File(caps::cut_in_a_corridor)),
];

/// Families that only weights have.
const WEIGHT_FAMILIES: &[(&str, Make)] = &[
    (
        "refused: reading, weight or load",
        Make::File(weights::past_bounds),
    ),
    (
        "edge of reading, weight or load",
        Make::File(weights::at_bounds),
    ),
    ("BU and BV meet", Make::File(weights::forms_meet)),
    ("BU and BV meet", Make::File(weights::forms_meet)),
    ("cut in a bus", Make::File(weights::cut_in_a_bus)),
    (
        "BV in the place of others",
        Make::File(weights::in_place_of_others),
    ),
];

type Families = Vec<&'static (&'static str, Make)>;

/// Names of all families.
pub fn family_names() -> Vec<String> {
    let of = |range: Range| {
        let names = range.families().into_iter().map(|&(name, _)| name);
        names.map(move |name| range.name(name))
    };
    RANGES.into_iter().flat_map(of).collect()
}

/// The seed of some case, with caps or without.
pub fn some_seed(random: &mut Random) -> u64 {
    random.bits() % WEIGHED
}

/// The case file of a seed.
pub fn case_file(seed: u64) -> CaseFile {
    let (range, number) = Range::of(seed);
    let families = range.families();
    let count = families.len() as u64;
    let (place, run) = ((number % count) as usize, number / count);
    let extras = range.extras(run);
    let (family, make) = families[place];
    let mut random = Random::new(family, seed);
    let bytes = match make {
        Make::Case(case) => {
            let case = case(&mut random);
            write_case(&with_extras(&mut random, case, extras))
        }
        Make::File(file) => {
            let turn = turn(&families, place, run as usize);
            file(&mut random, turn, extras)
        }
    };
    let family = range.name(family);
    CaseFile { family, bytes }
}

/// The cases among the families, for modes 3 to 5.
fn plain_families() -> impl Iterator<Item = serving::Family> {
    FAMILIES.iter().filter_map(|(family, make)| match make {
        Make::Case(case) => Some((*family, *case)),
        Make::File(_) => None,
    })
}

/// Names of all families in modes 3 to 5.
pub fn serving_names() -> Vec<String> {
    let of = |range: Range| {
        let own = serving::FAMILIES.iter().copied();
        let names = own.chain(plain_families()).map(|(name, _)| name);
        names.map(move |name| range.name(name))
    };
    RANGES.into_iter().flat_map(of).collect()
}

/// The case file of a seed in modes 3 to 5: of odd seeds a family with idle
/// units, of even ones a case as in modes 0 to 2 with its mode raised. Of
/// those with own caps one in twelve has a cap past its bound.
pub fn serving_file(seed: u64) -> CaseFile {
    let (range, number) = Range::of(seed);
    let families: Vec<serving::Family> = match number % 2 {
        1 => serving::FAMILIES.to_vec(),
        _ => plain_families().collect(),
    };
    let turn = number / 2;
    let count = families.len() as u64;
    let extras = range.extras(turn / count);
    let (family, make) = families[(turn % count) as usize];
    let mut random = Random::new(family, seed);
    let mut case = make(&mut random);
    if case.mode < SERVING {
        case.mode += SERVING;
    }
    let mut case = with_extras(&mut random, case, extras);
    if extras.capped && random.once_in(12) {
        caps::put_past(&mut random, &mut case);
    }
    let family = range.name(family);
    let bytes = write_case(&case);
    CaseFile { family, bytes }
}

/// The case file of a seed written as BV with weight 1, where it can be read.
pub fn ones_file(seed: u64) -> CaseFile {
    let file = case_file(seed);
    match read_case(&file.bytes) {
        Ok(case) => CaseFile {
            bytes: write_case(&weights::with_ones(case)),
            ..file
        },
        Err(_) => file,
    }
}

/// Such a file with its weights left out.
pub fn without_weights(file: &[u8]) -> Vec<u8> {
    match read_case(file) {
        Ok(mut case) => {
            case.buses.iter_mut().for_each(|bus| bus.weighed = false);
            write_case(&case)
        }
        Err(_) => file.to_vec(),
    }
}

/// Gives every other case of a season weights.
pub fn weigh_some(random: &mut Random, files: &mut [Vec<u8>]) {
    for file in files {
        if let Ok(case) = read_case(file) {
            let weighed = random.once_in(2);
            *file = write_case(&weights::with_weights(random, case, weighed));
        }
    }
}

/// Which file of its family this is: a family that stands twice in the list
/// takes its turns alternately.
fn turn(families: &Families, place: usize, run: usize) -> usize {
    let same = |&i: &usize| families[i].0 == families[place].0;
    let places = (0..families.len()).filter(same);
    run * places.clone().count() + places.take_while(|&i| i < place).count()
}
