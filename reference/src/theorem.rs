//! The theorem, in antt, that the defined plan of a case has the listing that
//! is printed here. tools/case-theorems makes the files of crates/plan_cases
//! by it.

use std::fmt::Write;

use crate::harness::case_file::read_case;
use crate::harness::case_text::print_text;
use crate::harness::listing::answer_list;
use crate::harness::tables::Case;
use crate::tally::shapes;
use crate::watch::{apart, BRANCHES};

const MODES: [&str; 6] = [
    "Expand",
    "Reinforce",
    "Observe",
    "ExpandServing",
    "ReinforceServing",
    "ObserveServing",
];

/// The file of the theorem about the case in `file`; None where the file is
/// refused before there is a case.
pub fn theorem(file: &[u8]) -> Option<String> {
    let case = read_case(file).ok()?;
    let (listing, taken) = apart(|| answer_list(file));
    let mode = MODES[usize::from(case.mode)];
    Some(format!(
        "{}-- By evaluation.\n{}{}{}{}",
        happenings(&case, &listing, &taken),
        uses(mode),
        given(&case, mode),
        weighed(&case),
        listed(&case, &listing)
    ))
}

/// Comments: what the file shows, and the branches that were taken.
fn happenings(case: &Case, listing: &str, taken: &[u64]) -> String {
    let mut text = format!("-- {}", MODES[usize::from(case.mode)]);
    for shape in shapes(case) {
        write!(text, ", {shape}").expect("text grows");
    }
    if let Some(refusal) = listing.strip_prefix("RF ") {
        write!(text, ", refused: {}", refusal.trim_end()).expect("text grows");
    }
    text.push_str(
        ": the defined plan's listing is the reference build's. The branches that are taken:",
    );
    let mut last = "";
    for (branch, _) in BRANCHES.iter().zip(taken).filter(|(_, &times)| times > 0) {
        let (part, what) = branch.split_once(": ").expect("a branch names its part");
        match part == last {
            true => write!(text, "; {what}"),
            false => write!(text, "\n-- {branch}"),
        }
        .expect("text grows");
        last = part;
    }
    text.push_str(if last.is_empty() { " none.\n" } else { "\n" });
    text
}

fn uses(mode: &str) -> String {
    format!(
        "use mathlib.Core.List.{{List, [], ◌∷◌}}
use mathlib.Core.Path.{{◌≡◌, refl}}
use lib.ListN.{{length}}
use lib.Ieee.{{Float}}
use Rattle.mode.specs.declared.PlanMode.TheVariants.{{{mode}}}
use Rattle.plan_defs.specs.Case.{{Case, rows_of}}
use Rattle.plan_defs.specs.Listing.{{listing_of}}
use Rattle.plan_defs.proofs.Unfolded.{{whole_plan}}
use Rattle.plan_cases.proofs.Figures.{{figures, load_bits}}
"
    )
}

/// A list whose elements are written already.
fn list(elements: impl Iterator<Item = String>) -> String {
    let mut text: String = elements.map(|element| element + " ∷ ").collect();
    text.push_str("[]");
    text
}

fn whole<T: Into<u32>>(numbers: impl Iterator<Item = T>) -> String {
    list(numbers.map(|n| n.into().to_string()))
}

fn bits(figures: impl Iterator<Item = f64>) -> String {
    list(figures.map(|v| hex(&format!("{:016X}", v.to_bits()))))
}

fn figures(figures: impl Iterator<Item = f64>) -> String {
    format!("figures ({})", bits(figures))
}

/// A figure of the listing as a number: its sixteen digits in fours.
fn hex(digits: &str) -> String {
    match digits.trim_start_matches('0') {
        "" => "0".to_owned(),
        _ => format!(
            "0x{}_{}_{}_{}",
            &digits[..4],
            &digits[4..8],
            &digits[8..12],
            &digits[12..]
        ),
    }
}

/// The sheet by level, as planning has it; the case's own rows are by corridor.
fn sheet(case: &Case) -> String {
    let (levels, ways) = (case.ladder.len(), case.corridors.len());
    let rows = (0..levels * ways).map(|i| &case.sheet[i % ways * levels + i / ways]);
    let sheet = rows.flat_map(|row| [row.r, row.x, row.b, row.rate, f64::from(row.basis)]);
    format!(
        "\n-- by level\nabbrev pub sheet : List Float\nsheet = {}\n\n",
        figures(sheet)
    )
}

/// The case, as its text and as a record.
fn given(case: &Case, mode: &str) -> String {
    let (buses, units, ways) = (&case.buses, &case.generators, &case.corridors);
    let mut fields = vec![
        ("mode", mode.to_owned()),
        ("buses", buses.len().to_string()),
        ("corridors", ways.len().to_string()),
        ("generators", units.len().to_string()),
        ("above", case.above.to_string()),
        ("requested", case.requested().to_string()),
        ("ladder", figures(case.ladder.iter().copied())),
        ("tier", whole(buses.iter().map(|bus| bus.tier))),
        ("reading", figures(buses.iter().map(|bus| bus.reading))),
        ("weight", figures(buses.iter().map(|bus| bus.weight))),
        ("load", figures(buses.iter().map(|bus| bus.load()))),
        ("bus", whole(units.iter().map(|g| g.bus))),
        ("slack", whole(units.iter().map(|g| g.slack))),
        ("pmin", figures(units.iter().map(|g| g.pmin))),
        ("pmax", figures(units.iter().map(|g| g.pmax))),
        ("c1", figures(units.iter().map(|g| g.c1))),
        ("c2", figures(units.iter().map(|g| g.c2))),
        ("a", whole(ways.iter().map(|c| c.a))),
        ("b", whole(ways.iter().map(|c| c.b))),
        ("circuits", whole(ways.iter().map(|c| c.circuits))),
        ("km", figures(ways.iter().map(|c| c.length))),
        ("share", figures(ways.iter().map(|c| c.share))),
        ("cap", whole(ways.iter().map(|c| c.cap))),
    ];
    let rows = format!("rows_of {} {} sheet", ways.len(), case.ladder.len());
    fields.extend([("figures", "length sheet".to_owned()), ("row", rows)]);
    let mut text = sheet(case);
    for line in print_text(case).lines() {
        writeln!(text, "-- {line}").expect("text grows");
    }
    text.push_str("abbrev pub given : Case\ngiven =\n    record {\n");
    for (name, value) in fields {
        writeln!(text, "      {name} = {value};").expect("text grows");
    }
    text + "    }\n"
}

/// That the case's loads are what its readings and weights make.
fn weighed(case: &Case) -> String {
    let loads = bits(case.buses.iter().map(|bus| bus.load()));
    format!("\npub weighed : load_bits given ≡ {loads}\nunfolding whole_plan\nweighed = refl\n")
}

/// One field of all lines of the listing that have this mark; the mark is field 0.
fn column<'a>(listing: &'a str, mark: &'a str, place: usize) -> impl Iterator<Item = &'a str> {
    let lines = listing.lines().map(|line| line.split(' '));
    lines
        .filter(move |fields| fields.clone().next() == Some(mark))
        .map(move |mut fields| fields.nth(place).expect("the listing has this field"))
}

/// The lists of numbers that `listing_of` gives, from the listing's text.
fn lists(listing: &str) -> Vec<String> {
    let row = |text: &str| list(text.split(' ').skip(1).map(str::to_owned));
    if listing.starts_with("RF") {
        return vec![row(listing.trim_end())];
    }
    let whole = |mark, place| list(column(listing, mark, place).map(str::to_owned));
    let bits = |mark, place| list(column(listing, mark, place).map(hex));
    let most = column(listing, "MX", 1).chain(column(listing, "MX", 2));
    vec![
        row(listing.lines().next().expect("a listing has lines")),
        bits("AD", 1),
        whole("GR", 1),
        whole("BU", 2),
        bits("BU", 3),
        bits("GE", 2),
        whole("CO", 2),
        bits("CO", 3),
        bits("CO", 4),
        list(most.map(hex)),
    ]
}

/// The theorem and its proof.
fn listed(case: &Case, listing: &str) -> String {
    let mut text = format!("\npub listed :\n    listing_of given {}\n", case.target);
    for (i, list) in lists(listing).iter().enumerate() {
        let before = ["∷", "≡"][usize::from(i == 0)];
        match list.as_str() {
            "[]" => writeln!(text, "    {before} []"),
            _ => writeln!(text, "    {before} ({list})"),
        }
        .expect("text grows");
    }
    text + "    ∷ []\nunfolding whole_plan\nlisted = refl\n"
}
