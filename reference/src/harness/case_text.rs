//! A case as text, as document 01 writes case L: a line a record, its mark and
//! then its fields, figures in decimals. For cases that people write or read.

use std::fmt::Write;
use std::str::{FromStr, SplitAsciiWhitespace};

use crate::harness::tables::{Bus, Case, CorridorRecord, Generator, Line};

/// The most places in which a figure is written without an exponent.
const PLACES: usize = 17;

/// The shortest decimal that is read back as `v`.
pub fn decimal(v: f64) -> String {
    let plain = v.to_string();
    if plain.len() <= PLACES {
        plain
    } else {
        format!("{v:e}")
    }
}

/// The text of `case`.
pub fn print_text(case: &Case) -> String {
    let mut text = format!(
        "HD {} {} {} {} {} {} {}\n",
        case.mode,
        case.target,
        case.buses.len(),
        case.corridors.len(),
        case.generators.len(),
        case.above,
        case.requested()
    );
    let mut line = |mark: &str, whole: &[usize], figures: &[f64], last: &[u8]| {
        text.push_str(mark);
        let whole = whole.iter().map(usize::to_string);
        let figures = figures.iter().map(|&v| decimal(v));
        for field in whole.chain(figures).chain(last.iter().map(u8::to_string)) {
            write!(text, " {field}").expect("text grows");
        }
        text.push('\n');
    };
    for &kv in &case.ladder {
        line("LV", &[], &[kv], &[]);
    }
    for bus in &case.buses {
        let tier = [bus.tier.into()];
        match bus.weighed {
            true => line("BV", &tier, &[bus.reading, bus.weight], &[]),
            false => line("BU", &tier, &[bus.reading], &[]),
        }
    }
    for g in &case.generators {
        let whole = [g.bus.into(), g.slack.into()];
        line("GE", &whole, &[g.pmin, g.pmax, g.c1, g.c2], &[]);
    }
    for c in &case.corridors {
        let whole = [c.a.into(), c.b.into(), c.circuits.into()];
        let figures = [c.length, c.share];
        match c.is_capped() {
            true => line("CP", &whole, &figures, &[c.cap]),
            false => line("CO", &whole, &figures, &[]),
        }
    }
    for row in &case.sheet {
        let figures = [row.r, row.x, row.b, row.rate];
        line("LN", &[], &figures, &[row.basis]);
    }
    text
}

/// The fields of the lines, one after another, marks among them.
struct Words<'a>(SplitAsciiWhitespace<'a>);

impl Words<'_> {
    fn mark(&mut self, mark: &str) -> Option<()> {
        (self.0.next()? == mark).then_some(())
    }

    fn field<T: FromStr>(&mut self) -> Option<T> {
        self.0.next()?.parse().ok()
    }

    /// `count` records, each after its mark.
    fn table<T>(
        &mut self,
        count: usize,
        mark: &str,
        one: fn(&mut Self) -> Option<T>,
    ) -> Option<Vec<T>> {
        (0..count)
            .map(|_| self.mark(mark).and_then(|()| one(self)))
            .collect()
    }

    /// A bus after its mark, BU or BV.
    fn bus(&mut self) -> Option<Bus> {
        let weighed = match self.0.next()? {
            "BU" => false,
            "BV" => true,
            _ => return None,
        };
        Some(Bus {
            tier: self.field()?,
            reading: self.field()?,
            weight: if weighed { self.field()? } else { 1.0 },
            weighed,
        })
    }

    /// A corridor after its mark, CO or CP.
    fn corridor(&mut self) -> Option<CorridorRecord> {
        let marked = match self.0.next()? {
            "CO" => false,
            "CP" => true,
            _ => return None,
        };
        Some(CorridorRecord {
            a: self.field()?,
            b: self.field()?,
            circuits: self.field()?,
            length: self.field()?,
            share: self.field()?,
            cap: if marked { self.field()? } else { 0 },
            marked,
        })
    }
}

/// What a line says: all before a `#`, which begins a comment.
fn said(line: &str) -> &str {
    line.split('#').next().unwrap_or_default()
}

/// The case that `text` says, or None where it says none. What no case file
/// can hold is not looked for, and nothing else is refused here.
pub fn parse_text(text: &str) -> Option<Case> {
    let text: Vec<&str> = text.lines().map(said).collect();
    let text = text.join("\n");
    let mut words = Words(text.split_ascii_whitespace());
    words.mark("HD")?;
    let (mode, target) = (words.field()?, words.field()?);
    let (buses, corridors, generators) = (words.field()?, words.field()?, words.field()?);
    let (above, requested): (usize, usize) = (words.field()?, words.field()?);
    let levels = above + requested;
    let case = Case {
        mode,
        target,
        above,
        ladder: words.table(levels, "LV", Words::field)?,
        buses: (0..buses).map(|_| words.bus()).collect::<Option<_>>()?,
        generators: words.table(generators, "GE", |words| {
            Some(Generator {
                bus: words.field()?,
                slack: words.field()?,
                pmin: words.field()?,
                pmax: words.field()?,
                c1: words.field()?,
                c2: words.field()?,
            })
        })?,
        corridors: (0..corridors)
            .map(|_| words.corridor())
            .collect::<Option<_>>()?,
        sheet: words.table(corridors * levels, "LN", |words| {
            Some(Line {
                r: words.field()?,
                x: words.field()?,
                b: words.field()?,
                rate: words.field()?,
                basis: words.field()?,
            })
        })?,
    };
    words.0.next().is_none().then_some(case)
}
