//! Requests for single operations, one a line, and their answers.

use crate::electrical::planning::End;
use crate::harness::figures::{hex, listed, parse_hex, parse_whole};
use crate::harness::operations::{
    accepted_leaders, angles, dispatch, impedance, placement, square_root, Network, Support,
};
use crate::harness::preview::Kept;
use crate::harness::refusal::Refusal;
use crate::harness::sheet::{LaidRequest, RowsRequest, SheetRequest, ROW};
use crate::harness::tables::{MOST_CORRIDORS, MOST_LEVELS, MOST_MODE};

/// Levels, corridors and figures of a sheet up to these are taken: one past
/// each bound.
pub const MOST_SHEET_LEVELS: usize = MOST_LEVELS + 1;
pub const MOST_SHEET_CORRIDORS: usize = MOST_CORRIDORS + 1;
pub const MOST_SHEET_FIGURES: usize = ROW * MOST_SHEET_LEVELS * MOST_SHEET_CORRIDORS;

/// Counts up to this are taken, so that refusal 2 can be asked.
pub const MOST_COUNT: usize = 400;

/// The answer to a line that is no request.
const NO_REQUEST: &str = "??";

/// The answers to all lines of `text`, one line each. A last line without a
/// line feed is a request too, unless it is empty.
pub fn answer_all(text: &[u8]) -> String {
    let body = text.strip_suffix(b"\n").unwrap_or(text);
    if text.is_empty() {
        return String::new();
    }
    body.split(|&c| c == b'\n')
        .map(|line| answer(line) + "\n")
        .collect()
}

/// The answer to one line, without its line feed.
pub fn answer(line: &[u8]) -> String {
    match ask(line) {
        Some(Ok(words)) => words,
        Some(Err(refusal)) => refusal.to_string(),
        None => NO_REQUEST.to_owned(),
    }
}

/// `None` where the line is no request.
fn ask(line: &[u8]) -> Option<Result<String, Refusal>> {
    let mut fields = Fields(line.split(|&c| c == b' '));
    match fields.0.next()? {
        b"SQRT" => ask_square_root(fields),
        b"IMP" => ask_impedance(fields),
        b"LEAD" => ask_leaders(fields),
        b"DISP" => ask_dispatch(fields),
        b"ANG" => ask_angles(fields),
        b"PLACE" => ask_placement(fields),
        b"SHEET" => ask_sheet(fields),
        b"ROWS" => ask_rows(fields),
        b"LAID" => ask_laid(fields),
        b"PREV" => ask_preview(fields),
        _ => None,
    }
}

/// The fields after the request's word.
struct Fields<I>(I);

impl<'a, I: Iterator<Item = &'a [u8]>> Fields<I> {
    fn bits(&mut self) -> Option<u64> {
        parse_hex(self.0.next()?)
    }
    fn figure(&mut self) -> Option<f64> {
        self.bits().map(f64::from_bits)
    }
    fn whole(&mut self) -> Option<usize> {
        parse_whole(self.0.next()?)
    }
    fn count(&mut self) -> Option<usize> {
        self.at_most(MOST_COUNT)
    }
    fn at_most(&mut self, bound: usize) -> Option<usize> {
        self.whole().filter(|&count| count <= bound)
    }
    fn many<T>(&mut self, count: usize, one: impl Fn(&mut Self) -> Option<T>) -> Option<Vec<T>> {
        (0..count).map(|_| one(self)).collect()
    }
    /// The request must end here.
    fn end(mut self) -> Option<()> {
        self.0.next().is_none().then_some(())
    }
}

/// `OK` and then each word.
fn ok(words: impl IntoIterator<Item = String>) -> String {
    words
        .into_iter()
        .fold("OK".to_owned(), |line, word| line + " " + &word)
}

type Answer = Option<Result<String, Refusal>>;

fn ask_square_root<'a>(mut fields: Fields<impl Iterator<Item = &'a [u8]>>) -> Answer {
    let bits = fields.bits()?;
    fields.end()?;
    Some(Ok(ok([hex(square_root(bits))])))
}

fn ask_impedance<'a>(mut fields: Fields<impl Iterator<Item = &'a [u8]>>) -> Answer {
    let mva = fields.figure()?;
    fields.end()?;
    Some(impedance(mva).map(|(r, x)| ok([listed(r), listed(x)])))
}

fn ask_leaders<'a>(mut fields: Fields<impl Iterator<Item = &'a [u8]>>) -> Answer {
    let buses = fields.count()?;
    let corridors = fields.count()?;
    let ends = fields.many(corridors, |f| Some((f.whole()?, f.whole()?)))?;
    fields.end()?;
    let leaders = accepted_leaders(buses, &ends);
    Some(leaders.map(|leaders| ok(leaders.iter().map(usize::to_string))))
}

fn ask_dispatch<'a>(mut fields: Fields<impl Iterator<Item = &'a [u8]>>) -> Answer {
    let count = fields.count()?;
    let demand = fields.figure()?;
    let units = fields.many(count, |f| {
        Some((f.figure()?, f.figure()?, f.figure()?, f.figure()?))
    })?;
    fields.end()?;
    Some(dispatch(&units, demand).map(|outputs| ok(outputs.into_iter().map(listed))))
}

fn ask_angles<'a>(mut fields: Fields<impl Iterator<Item = &'a [u8]>>) -> Answer {
    let buses = fields.count()?;
    let edges = fields.count()?;
    let grounds = fields.count()?;
    let with_guess = match fields.whole()? {
        0 => false,
        1 => true,
        _ => return None,
    };
    let network = Network {
        edges: fields.many(edges, |f| Some((f.whole()?, f.whole()?, f.figure()?)))?,
        injection: fields.many(buses, Fields::figure)?,
        grounds: fields.many(grounds, Fields::whole)?,
        guess: match with_guess {
            true => Some(fields.many(buses, Fields::figure)?),
            false => None,
        },
    };
    fields.end()?;
    Some(angles(&network).map(|solve| {
        let (end, last) = match solve.end {
            End::Settled(norm) => ("SETTLED", norm),
            End::NoDescent(dq) => ("NODESCENT", dq),
            End::Spent(norm) => ("SPENT", norm),
        };
        let head = [solve.moves.to_string(), end.to_owned(), listed(last)];
        ok(head.into_iter().chain(solve.angles.into_iter().map(listed)))
    }))
}

fn ask_placement<'a>(mut fields: Fields<impl Iterator<Item = &'a [u8]>>) -> Answer {
    let buses = fields.count()?;
    let corridors = fields.count()?;
    let generators = fields.count()?;
    let readings = fields.many(buses, Fields::figure)?;
    let weights = fields.many(buses, Fields::figure)?;
    let support = Support {
        buses: readings.into_iter().zip(weights).collect(),
        corridors: fields.many(corridors, |f| Some((f.whole()?, f.whole()?, f.figure()?)))?,
        generator_buses: fields.many(generators, Fields::whole)?,
    };
    fields.end()?;
    Some(placement(&support).map(|condensers| {
        let count = condensers.len().to_string();
        let each = condensers
            .into_iter()
            .flat_map(|(bus, mvar)| [bus.to_string(), listed(mvar)]);
        ok(std::iter::once(count).chain(each))
    }))
}

/// What a line asks of the sheet, where it is such a request.
pub fn sheet_request(line: &[u8]) -> Option<SheetRequest> {
    let mut fields = Fields(line.split(|&c| c == b' '));
    fields.0.next().filter(|&word| word == b"SHEET")?;
    read_sheet(fields)
}

fn read_sheet<'a>(mut fields: Fields<impl Iterator<Item = &'a [u8]>>) -> Option<SheetRequest> {
    let levels = fields.at_most(MOST_SHEET_LEVELS)?;
    let ladder = fields.many(levels, Fields::figure)?;
    let corridors = fields.at_most(MOST_SHEET_CORRIDORS)?;
    let corridors = fields.many(corridors, |f| Some((f.figure()?, f.figure()?)))?;
    fields.end()?;
    Some(SheetRequest { ladder, corridors })
}

/// The rows by the published code, from which ours may differ within the
/// bounds of K8: the judge, and no comparison with this, decides.
fn ask_sheet<'a>(fields: Fields<impl Iterator<Item = &'a [u8]>>) -> Answer {
    let request = read_sheet(fields)?;
    Some(request.check().map(|()| {
        let rows = request.published();
        ok(rows.into_iter().flatten().map(listed))
    }))
}

fn ask_rows<'a>(mut fields: Fields<impl Iterator<Item = &'a [u8]>>) -> Answer {
    let [corridors, levels, count, corridor] = [
        fields.count()?,
        fields.count()?,
        fields.count()?,
        fields.count()?,
    ];
    let mut sheet = || {
        let figures = fields.at_most(MOST_SHEET_FIGURES)?;
        fields.many(figures, Fields::figure)
    };
    let (surveyed, worked) = (sheet()?, sheet()?);
    fields.end()?;
    let request = RowsRequest {
        corridors,
        levels,
        count,
        corridor,
        surveyed,
        worked,
    };
    let rows = request.rows();
    let head = std::iter::once(rows.len().to_string());
    Some(Ok(ok(head.chain(rows.iter().copied().map(listed)))))
}

fn ask_laid<'a>(mut fields: Fields<impl Iterator<Item = &'a [u8]>>) -> Answer {
    let [corridors, levels] = [fields.count()?, fields.count()?];
    let figures = fields.at_most(MOST_SHEET_FIGURES)?;
    let rows = fields.many(figures, Fields::figure)?;
    let places = fields.at_most(MOST_SHEET_FIGURES)?;
    fields.end()?;
    let request = LaidRequest {
        corridors,
        levels,
        rows,
        places,
    };
    let laid = request.laid();
    Some(laid.map(|figures| ok(figures.into_iter().map(listed))))
}

fn ask_preview<'a>(mut fields: Fields<impl Iterator<Item = &'a [u8]>>) -> Answer {
    let mode = fields.at_most(MOST_MODE.into())?;
    let target = fields.whole()?;
    let corridors = fields.count()?;
    let kept = Kept {
        mode: mode as u8,
        before: fields.many(corridors, Fields::whole)?,
        cap: fields.many(corridors, Fields::whole)?,
        order: fields.many(corridors, Fields::whole)?,
    };
    fields.end()?;
    let circuits = kept.preview(target);
    Some(circuits.map(|circuits| ok(circuits.iter().map(usize::to_string))))
}
