//! Two survey districts in one case (document 02, K10), from its words.

use crate::harness::case_file::{read_case, write_case, MOST_BYTES};
use crate::harness::checks::accept_case;
use crate::harness::refusal::{Refusal, COUNT, DISTRICTS};
use crate::harness::tables::{Case, MOST_BUSES, MOST_CORRIDORS, MOST_GENERATORS, MOST_TARGET};

/// What refuses two files, in order.
#[derive(Clone, Copy, Debug, PartialEq, Eq)]
pub enum Step {
    ReadFirst,
    ReadSecond,
    First,
    Second,
    Sum,
    Unlike,
}

/// A refusal and the step that gives it.
#[derive(Clone, Copy, Debug, PartialEq, Eq)]
pub struct Refused {
    pub step: Step,
    pub refusal: Refusal,
}

type Sum = (&'static str, fn(&Case) -> usize, usize);

/// What adds up, and its bound.
pub const SUMS: [Sum; 4] = [
    ("buses", |case| case.buses.len(), MOST_BUSES),
    ("corridors", |case| case.corridors.len(), MOST_CORRIDORS),
    ("generators", |case| case.generators.len(), MOST_GENERATORS),
    ("targets", |case| case.target as usize, MOST_TARGET),
];

type Difference = (&'static str, fn(&Case, &Case) -> bool);

/// What must be alike.
pub const DIFFERENCES: [Difference; 4] = [
    ("modes", |first, second| first.mode != second.mode),
    ("numbers of levels", |first, second| {
        first.ladder.len() != second.ladder.len()
    }),
    ("kV", |first, second| {
        let mut levels = first.ladder.iter().zip(&second.ladder);
        levels.any(|(a, b)| a != b)
    }),
    ("requested levels", |first, second| {
        first.requested() != second.requested()
    }),
];

/// The sums that pass their bounds.
pub fn sums_past(first: &Case, second: &Case) -> Vec<&'static str> {
    let past = SUMS
        .iter()
        .filter(|(_, count, most)| count(first) + count(second) > *most);
    past.map(|&(name, ..)| name).collect()
}

/// What differs between the two.
pub fn differences(first: &Case, second: &Case) -> Vec<&'static str> {
    let so = DIFFERENCES
        .iter()
        .filter(|(_, differ)| differ(first, second));
    so.map(|&(name, _)| name).collect()
}

/// The second's records behind the first's, renumbered. All buses are BV where
/// a weight is not 1, and a corridor is a CP where it has a cap.
fn joined(first: &Case, second: &Case) -> Case {
    let before = first.buses.len() as u16;
    let mut case = first.clone();
    case.target += second.target;
    case.buses.extend(&second.buses);
    for g in &second.generators {
        let mut g = *g;
        g.bus += before;
        case.generators.push(g);
    }
    for c in &second.corridors {
        let mut c = *c;
        c.a += before;
        c.b += before;
        case.corridors.push(c);
    }
    case.sheet.extend(&second.sheet);
    let weighed = case.buses.iter().any(|bus| bus.weight != 1.0);
    case.buses.iter_mut().for_each(|bus| bus.weighed = weighed);
    case.corridors.iter_mut().for_each(|c| c.marked = c.cap > 0);
    case
}

/// The joined case of two files, or the first refusal: of reading each, of each
/// as a case, of both together.
pub fn join_files(first: &[u8], second: &[u8]) -> Result<Case, Refused> {
    let at = |step| move |refusal| Refused { step, refusal };
    let first = read_case(first).map_err(at(Step::ReadFirst))?;
    let second = read_case(second).map_err(at(Step::ReadSecond))?;
    accept_case(&first).map_err(at(Step::First))?;
    accept_case(&second).map_err(at(Step::Second))?;
    if !sums_past(&first, &second).is_empty() {
        return Err(at(Step::Sum)(Refusal::new(COUNT, 0)));
    }
    if !differences(&first, &second).is_empty() {
        return Err(at(Step::Unlike)(Refusal::new(DISTRICTS, 0)));
    }
    Ok(joined(&first, &second))
}

/// The two files of an input: the first has 65,536 bytes of it, or all there
/// are.
pub fn files_of(input: &[u8]) -> (&[u8], &[u8]) {
    input.split_at(input.len().min(MOST_BYTES))
}

/// What the program that joins prints: the joined file, or its refusal.
pub fn printed(joined: &Result<Case, Refused>) -> Vec<u8> {
    match joined {
        Ok(case) => write_case(case),
        Err(Refused { refusal, .. }) => format!("{refusal}\n").into_bytes(),
    }
}

/// The answer of the program that joins.
pub fn answer_join(input: &[u8]) -> Vec<u8> {
    let (first, second) = files_of(input);
    printed(&join_files(first, second))
}
