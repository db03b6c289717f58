//! The preview of a filling (document 02, K1): its refusals, the circuits for
//! a target from what a plan keeps, and what the preview program prints.

use std::collections::HashSet;
use std::fmt::Write;

use crate::electrical::params::MAX_CIRCUITS_PER_CORRIDOR;
use crate::harness::case_file::read_case;
use crate::harness::checks::MOST_CAP;
use crate::harness::plan::plan_case;
use crate::harness::refusal::{count_at_most, first_fault, Refusal, CORRIDOR, COUNT, MODE, ORDER};
use crate::harness::tables::{Case, MOST_CORRIDORS, MOST_TARGET, SERVING};

/// The mode that fills, whether or not idle units serve.
pub const EXPAND: u8 = 0;
/// Filling gives no corridor more that has no cap of its own.
pub const FULL: usize = MAX_CIRCUITS_PER_CORRIDOR as usize;
/// The most circuits of a corridor before filling.
pub const MOST_CIRCUITS: usize = 64;

/// What filling gives at most to a corridor of this cap.
pub fn full_at(cap: usize) -> usize {
    match cap {
        0 => FULL,
        own => own,
    }
}

/// Whether a mode counts as Expand.
pub fn fills(mode: u8) -> bool {
    mode % SERVING == EXPAND
}

/// What a plan keeps of filling; a place for each corridor in each list.
#[derive(Clone, Debug, PartialEq)]
pub struct Kept {
    pub mode: u8,
    pub before: Vec<usize>,
    /// Own caps (document 02, K5), kept in every mode.
    pub cap: Vec<usize>,
    pub order: Vec<usize>,
}

impl Kept {
    /// What the plan of `case` keeps, or why there is none.
    pub fn of(case: &Case) -> Result<Kept, Refusal> {
        let plan = plan_case(case)?.plan;
        Ok(Kept {
            mode: case.mode,
            before: plan.before.iter().map(|&n| n as usize).collect(),
            cap: case.corridors.iter().map(|c| c.cap.into()).collect(),
            order: plan.order,
        })
    }

    fn check(&self, target: usize) -> Result<(), Refusal> {
        count_at_most(self.before.len(), MOST_CORRIDORS)?;
        count_at_most(target, MOST_TARGET)?;
        if !fills(self.mode) {
            return Err(Refusal::new(MODE, 0));
        }
        first_fault(
            CORRIDOR,
            self.before.iter().zip(&self.cap),
            |(count, cap)| !(1..=MOST_CIRCUITS).contains(count) || *cap > MOST_CAP.into(),
        )?;
        let mut named = HashSet::new();
        first_fault(ORDER, &self.order, |&corridor| {
            corridor >= self.before.len() || !named.insert(corridor)
        })
    }

    /// What filling gives a corridor at most.
    pub fn full(&self, corridor: usize) -> usize {
        full_at(self.cap[corridor])
    }

    /// The total where every corridor is full.
    pub fn when_full(&self) -> usize {
        let each = self.before.iter().enumerate();
        each.map(|(k, &count)| count.max(self.full(k))).sum()
    }

    /// The circuits with this target: the corridors take one each in their
    /// order, again and again, until the target is met or all are full.
    pub fn preview(&self, target: usize) -> Result<Vec<usize>, Refusal> {
        self.check(target)?;
        let mut circuits = self.before.clone();
        let mut missing = target.saturating_sub(circuits.iter().sum());
        let room = |circuits: &[usize], k: usize| circuits[k] < self.full(k);
        while missing > 0 && (0..circuits.len()).any(|k| room(&circuits, k)) {
            for &corridor in &self.order {
                if missing > 0 && room(&circuits, corridor) {
                    circuits[corridor] += 1;
                    missing -= 1;
                }
            }
        }
        Ok(circuits)
    }
}

/// The circuits of planning `case` anew with another target; where that is
/// refused by planning itself, those of the preview.
fn planned_anew(case: &Case, kept: &Kept, target: usize) -> Result<Vec<usize>, Refusal> {
    kept.check(target)?;
    let anew = Case {
        target: target as u32,
        ..case.clone()
    };
    match plan_case(&anew) {
        Ok(planned) => Ok(planned.plan.circuits.iter().map(|&n| n as usize).collect()),
        Err(refusal) if refusal.number == COUNT => Err(refusal),
        Err(_) => kept.preview(target),
    }
}

/// A case file and targets as the preview program reads them: the file's
/// length, the file, the targets; numbers are u32, lowest byte first.
pub fn as_input(file: &[u8], targets: &[usize]) -> Vec<u8> {
    let mut input = (file.len() as u32).to_le_bytes().to_vec();
    input.extend_from_slice(file);
    for &target in targets {
        input.extend_from_slice(&(target as u32).to_le_bytes());
    }
    input
}

/// The file and the targets of an input; what is too short for a number is
/// none.
fn parts(input: &[u8]) -> (&[u8], Vec<usize>) {
    let number = |bytes: &[u8]| u32::from_le_bytes(bytes.try_into().expect("four bytes")) as usize;
    let Some((length, rest)) = input.split_at_checked(4) else {
        return (&[], Vec::new());
    };
    let (file, rest) = rest.split_at(number(length).min(rest.len()));
    (file, rest.chunks_exact(4).map(number).collect())
}

/// What the preview program prints, every target planned anew.
pub fn answer_preview(input: &[u8]) -> String {
    let (file, targets) = parts(input);
    let kept = read_case(file).and_then(|case| Ok((Kept::of(&case)?, case)));
    let (kept, case) = match kept {
        Ok(both) => both,
        Err(refusal) => return format!("{refusal}\n"),
    };
    let mut text = String::new();
    let mut line = |words: std::fmt::Arguments| writeln!(text, "{words}").expect("text grows");
    for target in targets {
        line(format_args!("PV {target}"));
        match planned_anew(&case, &kept, target) {
            Err(refusal) => line(format_args!("{refusal}")),
            Ok(circuits) => circuits
                .iter()
                .enumerate()
                .for_each(|(k, count)| line(format_args!("CO {k} {count}"))),
        }
    }
    text
}
