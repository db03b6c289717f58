//! Request K10: seeded pairs of case files joined by a program and by the
//! reference, and planned apart and joined.

use std::io;

use crate::compare::{describe_bytes, judge, printed_by, Outcome, Program};
use crate::generate::cases::pairs::{pair, pair_names, Pair};
use crate::harness::case_file::read_case;
use crate::harness::checks::accept_case;
use crate::harness::figures::listed;
use crate::harness::join::{
    differences, files_of, join_files, printed, sums_past, Refused, Step, DIFFERENCES, SUMS,
};
use crate::harness::listing::answer_list;
use crate::harness::plan::plan_case;
use crate::harness::tables::{Bus, Case, MOST_MODE, SERVING};
use crate::tally::Tally;
use crate::watch;

/// How many pairs must be planned apart and joined.
const PLANNED: u64 = 200;

/// Joins the pairs of `count` seeds by `program`; the answers are compared byte
/// by byte. What is joined is accepted and planned, and both cases apart;
/// `listing` lists all three as the reference does.
pub fn compare_joins(
    program: &Program,
    listing: Option<&Program>,
    first_seed: u64,
    count: u64,
) -> io::Result<Outcome> {
    let mut outcome = Outcome::default();
    for seed in first_seed..first_seed + count {
        let (pair, _) = watch::apart(|| pair(seed));
        let (what, input) = (format!("seed {seed}, {}", pair.family), pair.input());
        let (first, second) = files_of(&input);
        let (joined, taken) = watch::apart(|| join_files(first, second));
        outcome.tally.branches(&taken);
        count_pair(&mut outcome.tally, &pair, &joined);
        let ours = printed(&joined);
        let asked = input.clone();
        let goes_on = judge(program, asked, seed, &mut outcome, |theirs, outcome| {
            outcome.count(ours == theirs, || describe_bytes(&what, &ours, theirs));
        })?;
        if !goes_on {
            break;
        }
        let Ok(joined) = joined else {
            continue;
        };
        compare_plans(&what, [first, second], &joined, &mut outcome);
        if let Some(listing) = listing {
            compare_listings(listing, &what, [first, second, &ours], &mut outcome)?;
        }
    }
    Ok(outcome)
}

/// The joined case is accepted, and where all three have a plan it is that of
/// both apart.
fn compare_plans(what: &str, files: [&[u8]; 2], joined: &Case, outcome: &mut Outcome) {
    let (fault, _) = watch::apart(|| accept_case(joined).err());
    outcome.count(fault.is_none(), || {
        format!("{what}: the joined case is refused: {fault:?}")
    });
    let (apart, _) = watch::apart(|| planned_apart(files, joined));
    if let Some(apart) = apart {
        outcome.tally.count(name("all three planned"));
        outcome.count(apart, || format!("{what}: joined it is planned otherwise"));
    }
}

fn compare_listings(
    listing: &Program,
    what: &str,
    files: [&[u8]; 3],
    outcome: &mut Outcome,
) -> io::Result<()> {
    for (file, which) in files.into_iter().zip(["first", "second", "joined"]) {
        let theirs = printed_by(listing, file)?;
        let (ours, _) = watch::apart(|| answer_list(file));
        outcome.count(ours.as_bytes() == theirs, || {
            format!("{what}: the {which} case is listed otherwise")
        });
    }
    Ok(())
}

/// Whether each generator's MW is that of its own case and the grounds are
/// those of both, the second's moved by the first's buses; `None` where one of
/// the three has no plan.
fn planned_apart(files: [&[u8]; 2], joined: &Case) -> Option<bool> {
    let both = plan_case(joined).ok()?.plan;
    let (mut mw, mut grounds, mut before) = (Vec::new(), Vec::new(), 0);
    for file in files {
        let case = read_case(file).ok()?;
        let plan = plan_case(&case).ok()?.plan;
        mw.extend(plan.dispatch);
        grounds.extend(plan.grounds.iter().map(|ground| before + ground));
        before += case.buses.len();
    }
    let text = |mw: &[f64]| mw.iter().map(|&v| listed(v)).collect::<Vec<String>>();
    Some(text(&mw) == text(&both.dispatch) && grounds == both.grounds)
}

fn name(what: &str) -> String {
    format!("join: {what}")
}

fn step_name(step: Step) -> &'static str {
    match step {
        Step::ReadFirst => "reading the first",
        Step::ReadSecond => "reading the second",
        Step::First => "the first",
        Step::Second => "the second",
        Step::Sum => "sums",
        Step::Unlike => "unlike",
    }
}

fn refused_name(step: Step, number: u32) -> String {
    name(&format!("{}, RF {number}", step_name(step)))
}

fn alone_name(step: Step, what: &str) -> String {
    name(&format!("{}, by {what} alone", step_name(step)))
}

const IDLE: &str = "modes 3 apart, alone";
const UPPER: &str = "kV above the last level, alone";

type Shape = (&'static str, fn(&Case, &Case) -> bool);

/// What a pair that is joined may be like: the first, and both together.
const SHAPES: &[Shape] = &[
    ("BU", |_, joined| {
        joined.buses.iter().any(|bus| !bus.weighed)
    }),
    ("BV", |_, joined| joined.buses.iter().any(|bus| bus.weighed)),
    ("CO", |_, joined| {
        joined.corridors.iter().any(|c| !c.is_capped())
    }),
    ("CP", |_, joined| {
        joined.corridors.iter().any(|c| c.is_capped())
    }),
    ("weights in the first alone", |first, joined| {
        let (own, others) = joined.buses.split_at(first.buses.len());
        weighs(own) && !weighs(others)
    }),
    ("weights in the second alone", |first, joined| {
        let (own, others) = joined.buses.split_at(first.buses.len());
        !weighs(own) && weighs(others)
    }),
    ("no bus in the first alone", |first, joined| {
        first.buses.is_empty() && !joined.buses.is_empty()
    }),
    ("no bus in the second alone", |first, joined| {
        !first.buses.is_empty() && joined.buses.len() == first.buses.len()
    }),
    ("no bus", |_, joined| joined.buses.is_empty()),
    ("both with a target", |first, joined| {
        first.target > 0 && joined.target > first.target
    }),
];

/// Whether some of these buses have weights that are not 1.
fn weighs(buses: &[Bus]) -> bool {
    buses.iter().any(|bus| bus.weight != 1.0)
}

/// Counts a pair and what the reference makes of it.
fn count_pair(tally: &mut Tally, pair: &Pair, joined: &Result<Case, Refused>) {
    tally.count("compared: joins".to_owned());
    tally.count(name(pair.family));
    let cases = read_case(&pair.first).and_then(|first| Ok((first, read_case(&pair.second)?)));
    match (joined, cases) {
        (Err(Refused { step, refusal }), cases) => {
            tally.count(refused_name(*step, refusal.number));
            if let Ok((first, second)) = cases {
                count_reason(tally, *step, &first, &second);
            }
        }
        (Ok(joined), Ok((first, _))) => count_joined(tally, &first, joined),
        (Ok(_), Err(_)) => {}
    }
}

/// Counts the one sum or difference for which two accepted cases are refused.
fn count_reason(tally: &mut Tally, step: Step, first: &Case, second: &Case) {
    let reasons = match step {
        Step::Sum => sums_past(first, second),
        Step::Unlike => differences(first, second),
        _ => Vec::new(),
    };
    if let [reason] = reasons[..] {
        tally.count(alone_name(step, reason));
        if step == Step::Unlike && first.mode.abs_diff(second.mode) == SERVING {
            tally.count(name(IDLE));
        }
        if reason == "kV" && first.ladder.last() == second.ladder.last() {
            tally.count(name(UPPER));
        }
    }
}

fn count_joined(tally: &mut Tally, first: &Case, joined: &Case) {
    tally.count(name(&format!("mode {}", joined.mode)));
    for (what, is_so) in SHAPES {
        if is_so(first, joined) {
            tally.count(name(&format!("joined, {what}")));
        }
    }
    for (what, count, most) in SUMS {
        if count(joined) == most {
            tally.count(name(&format!("joined, {what} at the bound")));
        }
    }
}

/// What must be met, and how often at least.
pub fn expected() -> impl Iterator<Item = (String, u64)> {
    let families = pair_names().map(name);
    let of = |step, numbers: &'static [u32]| {
        numbers
            .iter()
            .map(move |&number| refused_name(step, number))
    };
    let refused = of(Step::ReadFirst, &[2, 14, 15, 16, 17])
        .chain(of(Step::ReadSecond, &[2, 13, 14, 15, 16, 17]))
        .chain(of(Step::First, &[3, 4, 5, 6, 7]))
        .chain(of(Step::Second, &[3, 4, 5, 6, 7]));
    let sums = SUMS.iter().flat_map(|(what, ..)| {
        let bound = name(&format!("joined, {what} at the bound"));
        [alone_name(Step::Sum, what), bound]
    });
    let unlike = DIFFERENCES
        .iter()
        .map(|(what, _)| alone_name(Step::Unlike, what));
    let modes = (0..=MOST_MODE).map(|mode| name(&format!("mode {mode}")));
    let shapes = SHAPES
        .iter()
        .map(|(what, _)| name(&format!("joined, {what}")));
    let once = families
        .chain(refused)
        .chain(sums)
        .chain(unlike)
        .chain(modes)
        .chain(shapes);
    once.chain([name(IDLE), name(UPPER)])
        .map(|name| (name, 1))
        .chain([(name("all three planned"), PLANNED)])
}
