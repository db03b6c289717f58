//! The count of branches: of everything that is compared, what the reference
//! build did with it and what it was like. A comparison writes its counts to a
//! file; the counts of several are added up and held to what must be met.

use std::collections::BTreeMap;
use std::fmt;
use std::ops::RangeInclusive;

use crate::generate::cases::{self, CaseFile};
use crate::generate::requests::{family_names, largest, Request, KINDS};
use crate::harness::case_file::{read_case, MOST_BYTES};
use crate::harness::moves::Direction;
use crate::harness::operations::leaders;
use crate::harness::tables::{
    Case, CorridorRecord, MOST_BUSES, MOST_CORRIDORS, MOST_GENERATORS, MOST_LEVELS, MOST_MODE,
    SERVING,
};
use crate::joins;
use crate::previews::{OTHER, TARGETS};
use crate::watch::BRANCHES;

/// How many requests of each largest family must be compared.
const LARGEST: u64 = 100;

/// How many Expand cases must be previewed under each target.
const PREVIEWED: u64 = 2_000;

/// How many plans of each of modes 3 to 5 must be compared.
const SERVED: u64 = 1_000;

/// What is compared of case files.
const CASES: [&str; 2] = ["list", "read"];

/// Answers that must be met, by what was asked.
const ANSWERS: &[(&str, &[&str])] = &[
    (
        "list",
        &[
            "PL 0", "PL 1", "PL 2", "RF 2", "RF 3", "RF 4", "RF 5", "RF 6", "RF 7", "RF 8",
        ],
    ),
    (
        "list",
        &["RF 9", "RF 13", "RF 14", "RF 15", "RF 16", "RF 17"],
    ),
    (
        "serve",
        &["RF 3", "RF 4", "RF 5", "RF 6", "RF 7", "RF 8", "RF 9"],
    ),
    (
        "read",
        &[
            "HD 0", "HD 1", "HD 2", "RF 2", "RF 13", "RF 14", "RF 15", "RF 16", "RF 17",
        ],
    ),
    ("SQRT", &["OK"]),
    ("IMP", &["OK", "RF 12"]),
    ("LEAD", &["OK", "RF 2", "RF 6"]),
    ("DISP", &["OK", "RF 2", "RF 5", "RF 8"]),
    ("ANG", &["OK", "RF 2", "RF 9", "RF 10"]),
    ("PLACE", &["OK", "RF 2", "RF 4", "RF 5", "RF 6"]),
    ("SHEET", &["OK", "RF 2", "RF 3", "RF 6", "RF 22"]),
    ("ROWS", &["OK"]),
    ("LAID", &["OK", "RF 1", "RF 2"]),
    ("PREV", &["OK", "RF 2", "RF 6", "RF 18", "RF 30"]),
    ("preview", &["CO", "nothing", "RF 2", "RF 18"]),
    (
        "preview of no plan",
        &["RF 2", "RF 6", "RF 8", "RF 9", "RF 13", "RF 15", "RF 17"],
    ),
    ("BAD", &["??"]),
    (
        "forward",
        &["moved", "RF 2", "RF 13", "RF 14", "RF 15", "RF 16", "RF 17"],
    ),
    (
        "back",
        &[
            "moved", "RF 2", "RF 13", "RF 14", "RF 15", "RF 16", "RF 17", "RF 21",
        ],
    ),
];

type TestOf<T> = fn(&T) -> bool;

/// What a case may be like, whatever it is answered.
const SHAPES: &[(&str, TestOf<Case>)] = &[
    ("no bus", |case| case.buses.is_empty()),
    ("no corridor", |case| case.corridors.is_empty()),
    ("no generator", |case| case.generators.is_empty()),
    ("one island", |case| islands(case) == 1),
    ("several islands", |case| islands(case) > 1),
    ("an isolated bus", has_isolated_bus),
    ("256 buses", |case| case.buses.len() == MOST_BUSES),
    ("256 corridors", |case| {
        case.corridors.len() == MOST_CORRIDORS
    }),
    ("128 generators", |case| {
        case.generators.len() == MOST_GENERATORS
    }),
    ("5 levels", |case| case.ladder.len() == MOST_LEVELS),
    ("levels above", |case| case.above > 0),
    ("an initial count of zero", |case| {
        case.corridors.iter().any(|c| c.circuits == 0)
    }),
    ("an initial count above six", |case| {
        case.corridors.iter().any(|c| c.circuits > 6)
    }),
    ("CO and CP mixed", |case| {
        let is_capped = |capped| case.corridors.iter().any(|c| c.is_capped() == capped);
        is_capped(false) && is_capped(true)
    }),
    ("every corridor a CP", |case| {
        !case.corridors.is_empty() && case.corridors.iter().all(CorridorRecord::is_capped)
    }),
    ("every bus a BV", |case| {
        case.buses.iter().any(|bus| bus.weighed)
    }),
    ("every weight 1", |case| {
        !case.buses.is_empty()
            && case
                .buses
                .iter()
                .all(|bus| bus.weighed && bus.weight == 1.0)
    }),
    ("weights other than 1", |case| {
        case.buses.iter().any(|bus| bus.weight != 1.0)
    }),
    ("weights and own caps", |case| {
        case.buses.iter().any(|bus| bus.weight != 1.0) && case.corridors.iter().any(|c| c.cap > 0)
    }),
    ("an own cap below the initial count", |case| {
        let below = |c: &CorridorRecord| 0 < c.cap && c.cap < c.circuits;
        case.corridors.iter().any(below)
    }),
    ("an own cap above the initial count", |case| {
        let above = |c: &CorridorRecord| c.cap > c.circuits;
        case.corridors.iter().any(above)
    }),
];

/// Cap bytes that must be met under each mode.
const CAPS: [u8; 10] = [0, 1, 2, 3, 4, 5, 6, 7, 128, 255];

/// A corridor written as CP, by its cap and the mode of its case.
fn capped(what: &str, mode: u8, cap: u8) -> String {
    format!("cap: {what}, mode {mode}, cap {cap}")
}

/// What a file may be like, whether it is read or not.
const FILES: &[(&str, TestOf<[u8]>)] = &[
    ("empty", |file| file.is_empty()),
    ("65,536 bytes", |file| file.len() == MOST_BYTES),
    ("longer than that", |file| file.len() > MOST_BYTES),
];

fn good_ends(case: &Case) -> Vec<(usize, usize)> {
    let ends = case
        .corridors
        .iter()
        .map(|c| (usize::from(c.a), usize::from(c.b)));
    ends.filter(|&(a, b)| a.max(b) < case.buses.len()).collect()
}

fn islands(case: &Case) -> usize {
    let mut all = leaders(case.buses.len(), good_ends(case).into_iter());
    all.sort_unstable();
    all.dedup();
    all.len()
}

fn has_isolated_bus(case: &Case) -> bool {
    let ends = good_ends(case);
    (0..case.buses.len()).any(|i| ends.iter().all(|&(a, b)| a != i && b != i))
}

/// What `case` is like, by the names of [`SHAPES`].
pub fn shapes(case: &Case) -> impl Iterator<Item = &'static str> + '_ {
    let so = SHAPES.iter().filter(move |(_, is_so)| is_so(case));
    so.map(|&(name, _)| name)
}

/// How often each thing was met, by its name.
#[derive(Default)]
pub struct Tally {
    counts: BTreeMap<String, u64>,
}

impl Tally {
    fn add(&mut self, name: String, times: u64) {
        *self.counts.entry(name).or_default() += times;
    }

    pub(crate) fn count(&mut self, name: String) {
        self.add(name, 1);
    }

    /// Counts the branches that the reference build took, in the order of
    /// [`BRANCHES`].
    pub fn branches(&mut self, taken: &[u64]) {
        for (name, &times) in BRANCHES.iter().zip(taken) {
            self.add(format!("branch: {name}"), times);
        }
    }

    /// Counts an answer by its first word, or two where they say more.
    fn answer(&mut self, what: &str, answer: &str) {
        let mut words = answer.split_ascii_whitespace();
        let kind = match (words.next(), words.next()) {
            (Some(first @ ("RF" | "PL" | "HD")), Some(second)) => format!("{first} {second}"),
            (first, _) => first.unwrap_or("nothing").to_owned(),
        };
        self.count(format!("answer: {what} {kind}"));
    }

    /// Counts a case file and what the reference build answers to it.
    pub fn case(&mut self, what: &str, file: &CaseFile, answer: &str) {
        self.count(format!("compared: {what}"));
        self.count(format!("case: {what}, {}", file.family));
        for (name, is_so) in FILES {
            if is_so(&file.bytes) {
                self.count(format!("file: {what}, {name}"));
            }
        }
        if let Ok(case) = read_case(&file.bytes) {
            for name in shapes(&case) {
                self.count(format!("tables: {what}, {name}"));
            }
            for c in case.corridors.iter().filter(|c| c.is_capped()) {
                self.count(capped(what, case.mode, c.cap));
            }
        }
        self.answer(what, answer);
    }

    /// Counts a file that is moved, and what the reference build answers.
    pub fn moved(&mut self, direction: Direction, family: &str, file: &[u8], answer: &[u8]) {
        let word = direction.word();
        self.count("compared: moves".to_owned());
        self.count(format!("moved: {word}, {family}"));
        if answer.starts_with(b"RF") {
            return self.answer(word, &String::from_utf8_lossy(answer));
        }
        self.answer(word, "moved");
        let buses = read_case(file).map_or(0, |case| case.buses.len());
        let sizes = [
            ("no bus", buses == 0),
            ("256 buses", buses == MOST_BUSES),
            ("65,536 bytes", file.len() == MOST_BYTES),
            ("fewer bytes", file.len() < MOST_BYTES),
        ];
        for (name, _) in sizes.into_iter().filter(|&(_, is_so)| is_so) {
            self.count(format!("moved: {word}, answered, {name}"));
        }
    }

    /// Counts a request and the reference build's answer.
    pub fn request(&mut self, kind: &str, request: &Request, answer: &[u8]) {
        self.count(format!("compared: {kind}"));
        self.count(format!("request: {kind}, {}", request.family));
        self.answer(kind, &String::from_utf8_lossy(answer));
    }

    /// Counts the answer of a preview under a target of the named sort: what
    /// follows the line of the target, or the refusal of the case.
    pub fn preview(&mut self, target: &str, answer: &str) {
        self.count("compared: previews".to_owned());
        self.count(format!("preview: {target}"));
        match answer.strip_prefix("PV ").map(|rest| rest.split_once('\n')) {
            None => self.answer("preview of no plan", answer),
            Some(after) => self.answer("preview", after.map_or("", |(_, rest)| rest)),
        }
    }

    /// Adds the counts that another tally's text has; `None` where it is none.
    pub fn read(&mut self, text: &str) -> Option<()> {
        for line in text.lines() {
            let (times, name) = line.trim_start().split_once("  ")?;
            self.add(name.to_owned(), times.parse().ok()?);
        }
        Some(())
    }

    /// The counts as text, with what is expected and was never met, and how many
    /// counts are too low.
    pub fn report(mut self) -> (String, usize) {
        let expected = expected();
        for name in expected.keys() {
            self.add(name.clone(), 0);
        }
        let seldom = expected
            .iter()
            .filter(|(name, &least)| self.counts[*name] < least);
        let seldom: Vec<String> = seldom
            .map(|(name, least)| format!("met less than {least} times: {name}\n"))
            .collect();
        let compared = self.counts.iter().filter_map(|(name, times)| {
            let what = name.strip_prefix("compared: ")?;
            Some(format!("{times} {what}"))
        });
        let compared: Vec<String> = compared.collect();
        let last = format!(
            "of the inputs that were compared ({}): {} counts, {} too low\n",
            compared.join(", "),
            self.counts.len(),
            seldom.len()
        );
        (format!("{self}{}{last}", seldom.concat()), seldom.len())
    }
}

/// One count a line.
impl fmt::Display for Tally {
    fn fmt(&self, f: &mut fmt::Formatter) -> fmt::Result {
        let mut counts = self.counts.iter();
        counts.try_for_each(|(name, times)| writeln!(f, "{times:>10}  {name}"))
    }
}

/// The caps that must be met under each of these modes.
fn caps(what: &str, modes: RangeInclusive<u8>) -> impl Iterator<Item = String> + '_ {
    let both = modes.flat_map(|mode| CAPS.map(|cap| (mode, cap)));
    both.map(move |(mode, cap)| capped(what, mode, cap))
}

/// What must be met in all comparisons together, and how often at least.
fn expected() -> BTreeMap<String, u64> {
    let branches = BRANCHES.iter().map(|name| format!("branch: {name}"));
    let answers = ANSWERS.iter().flat_map(|(what, kinds)| {
        kinds
            .iter()
            .map(move |kind| format!("answer: {what} {kind}"))
    });
    let of_cases = CASES.iter().flat_map(|what| {
        let families = cases::family_names().into_iter();
        let shapes = SHAPES.iter().map(|(name, _)| *name);
        let files = FILES.iter().map(|(name, _)| *name);
        let families = families.map(move |name| format!("case: {what}, {name}"));
        let shapes = shapes.map(move |name| format!("tables: {what}, {name}"));
        let files = files.map(move |name| format!("file: {what}, {name}"));
        families
            .chain(shapes)
            .chain(files)
            .chain(caps(what, 0..=SERVING - 1))
    });
    let serving = cases::serving_names().into_iter();
    let serving = serving.map(|name| format!("case: serve, {name}"));
    let serving = serving.chain(caps("serve", SERVING..=MOST_MODE));
    let moves = ["forward", "back"].into_iter().flat_map(|word| {
        let families = cases::moved::move_names().map(str::to_owned);
        let sizes = ["no bus", "256 buses", "65,536 bytes", "fewer bytes"];
        let sizes = sizes.map(|name| format!("answered, {name}"));
        families
            .chain(sizes)
            .map(move |name| format!("moved: {word}, {name}"))
    });
    let of_requests = KINDS.iter().flat_map(|kind| {
        family_names(kind)
            .into_iter()
            .map(move |name| format!("request: {kind}, {name}"))
    });
    let names = branches
        .chain(answers)
        .chain(of_cases)
        .chain(serving)
        .chain(moves)
        .chain(of_requests);
    let mut expected: BTreeMap<String, u64> = names.map(|name| (name, 1)).collect();
    for kind in KINDS {
        if let Some((family, _)) = largest(kind) {
            expected.insert(format!("request: {kind}, {family}"), LARGEST);
        }
    }
    for mode in SERVING..=MOST_MODE {
        expected.insert(format!("answer: serve PL {mode}"), SERVED);
    }
    for target in TARGETS {
        expected.insert(format!("preview: {target}"), PREVIEWED);
    }
    expected.insert(format!("preview: {OTHER}"), 1);
    expected.extend(joins::expected());
    expected
}
