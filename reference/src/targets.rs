//! Request K13: one Expand case listed under several targets. Each listing is
//! compared with the reference's, and on both sides a larger target must take
//! nothing away.

use std::io;

use crate::compare::{judge, Outcome, Program};
use crate::generate::cases::case_file;
use crate::harness::case_file::{read_case, write_case};
use crate::harness::listing::answer_list;
use crate::harness::preview::{fills, full_at};
use crate::harness::tables::{Case, MOST_TARGET};

/// What K13 speaks of, read off a listing; none where it is a refusal.
#[derive(Debug, PartialEq)]
pub struct Figures {
    rounds: usize,
    capacity: usize,
    stiffening: usize,
    circuits: Vec<usize>,
}

impl Figures {
    pub fn read(listing: &str) -> Option<Figures> {
        let mut lines = listing.lines();
        let plan = numbers(lines.next()?, "PL")?;
        Some(Figures {
            rounds: *plan.get(1)?,
            capacity: *plan.get(3)?,
            stiffening: *plan.get(4)?,
            circuits: lines
                .filter(|line| line.starts_with("CO "))
                .map(|line| line.split(' ').nth(2)?.parse().ok())
                .collect::<Option<_>>()?,
        })
    }

    fn total(&self) -> usize {
        self.circuits.iter().sum()
    }

    /// Whether nothing of `self` is taken away by `larger`, whose target is
    /// `more` above.
    pub fn kept_by(&self, larger: &Figures, more: usize) -> bool {
        let corridors = self.circuits.iter().zip(&larger.circuits);
        self.circuits.len() == larger.circuits.len()
            && corridors.into_iter().all(|(few, many)| few <= many)
            && (self.rounds, self.capacity, self.stiffening)
                == (larger.rounds, larger.capacity, larger.stiffening)
            && larger.total() - self.total() <= more
    }
}

/// The numbers of a line after its mark.
fn numbers(line: &str, mark: &str) -> Option<Vec<usize>> {
    let fields = line.strip_prefix(mark)?.split_whitespace();
    fields.map(|field| field.parse().ok()).collect()
}

/// Targets around every place where filling changes: nothing, the case's own,
/// the total before filling and one more, every corridor full, the most.
fn targets(case: &Case, before: usize) -> Vec<usize> {
    let full = case.corridors.iter().map(|c| full_at(c.cap.into())).sum();
    let mut targets = vec![
        0,
        case.target as usize,
        before,
        before + 1,
        (before + full) / 2,
        full,
        MOST_TARGET,
    ];
    targets.retain(|&target| target <= MOST_TARGET);
    targets.sort_unstable();
    targets.dedup();
    targets
}

/// A case's listings under its targets, one after another.
struct Drafts {
    seed: u64,
    side: &'static str,
    answered: Vec<(usize, Figures)>,
}

impl Drafts {
    /// Compares every two answered listings of one side.
    fn compare(&self, outcome: &mut Outcome) {
        for (place, (target, few)) in self.answered.iter().enumerate() {
            for (larger, many) in &self.answered[place + 1..] {
                outcome.count(few.kept_by(many, larger - target), || {
                    let (seed, side) = (self.seed, self.side);
                    format!(
                        "seed {seed}, {side}, targets {target} and {larger}\n  {few:?}\n  {many:?}"
                    )
                });
            }
        }
    }
}

/// Lists every seeded Expand case of `count` seeds under its targets.
pub fn compare_targets(program: &Program, first_seed: u64, count: u64) -> io::Result<Outcome> {
    let mut outcome = Outcome::default();
    for seed in first_seed..first_seed + count {
        let Ok(case) = read_case(&case_file(seed).bytes) else {
            continue;
        };
        if fills(case.mode) && !compare_case(program, seed, &case, &mut outcome)? {
            break;
        }
    }
    Ok(outcome)
}

/// The case with another target, as a file.
fn file_for(case: &Case, target: usize) -> Vec<u8> {
    let target = target as u32;
    write_case(&Case {
        target,
        ..case.clone()
    })
}

/// Answers whether to go on with the next case, as [`judge`] does.
fn compare_case(
    program: &Program,
    seed: u64,
    case: &Case,
    outcome: &mut Outcome,
) -> io::Result<bool> {
    let Some(unfilled) = Figures::read(&answer_list(&file_for(case, 0))) else {
        return Ok(true);
    };
    let drafts = |side| Drafts {
        seed,
        side,
        answered: Vec::new(),
    };
    let (mut reference, mut ours) = (drafts("reference"), drafts("program"));
    for target in targets(case, unfilled.total()) {
        let file = file_for(case, target);
        let listing = answer_list(&file);
        let figures = |text: &str| Figures::read(text).map(|figures| (target, figures));
        reference.answered.extend(figures(&listing));
        let goes_on = judge(program, file, seed, outcome, |printed, outcome| {
            outcome.count(listing.as_bytes() == printed, || {
                format!("seed {seed}, target {target}: the listings differ")
            });
            ours.answered
                .extend(figures(&String::from_utf8_lossy(printed)));
        })?;
        if !goes_on {
            return Ok(false);
        }
    }
    reference.compare(outcome);
    ours.compare(outcome);
    Ok(true)
}

#[cfg(test)]
mod tests {
    use super::*;

    fn figures(circuits: &[usize]) -> Figures {
        Figures {
            rounds: 3,
            capacity: 1,
            stiffening: 0,
            circuits: circuits.to_vec(),
        }
    }

    #[test]
    fn a_listing_is_read() {
        let listing = "PL 0 3 1 1 0 5 2 1 0 0\nGR 0\nCO 0 3 0 0\nCO 1 2 0 0\nMX 0 0\n";
        assert_eq!(Figures::read(listing), Some(figures(&[3, 2])));
        assert_eq!(Figures::read("RF 9 0\n"), None);
    }

    #[test]
    fn what_a_larger_target_may_not_do() {
        let few = figures(&[3, 2]);
        assert!(few.kept_by(&figures(&[3, 3]), 1));
        assert!(!few.kept_by(&figures(&[3, 3]), 0));
        assert!(!few.kept_by(&figures(&[2, 4]), 9));
        assert!(!few.kept_by(&figures(&[3, 2, 1]), 9));
        let other_rounds = Figures {
            rounds: 4,
            ..figures(&[3, 2])
        };
        assert!(!few.kept_by(&other_rounds, 9));
    }
}
