//! The judge of a worked-out line sheet, by the rules of document 02 (K8) and
//! not by closeness to the Rust.
//!
//! The rules fix every figure but for two results: y, the spread to the power
//! 0.6, of each corridor, within 1e-9; and m, the loadability between knots,
//! of each length, within 1e-5. So a corridor's rows are right when some y and
//! some m within these bounds give all of them, operation by operation. Each
//! figure rises with y or m, so those that give it are neighbours, found by
//! halving; and whether one of them is within its bound is a comparison of
//! whole numbers.

use crate::electrical::branches::BASE_MVA;
use crate::electrical::params::{LineClass, LINE_CLASSES};
use crate::harness::figures::listed_bits;
use crate::harness::sheet::{SheetRequest, ROW};
use crate::whole::Whole;

/// From this class on the spread is taken to the power 0.6.
const EHV: f64 = 345.0;

/// Knots of the curve, km and hundredths of the surge impedance loading.
const KNOTS: [(u64, u64); 6] = [
    (80, 300),
    (160, 200),
    (320, 135),
    (480, 100),
    (640, 85),
    (965, 60),
];

/// Binary digits after the point of a logarithm, as a start.
const DIGITS: u32 = 128;

/// Why the rows of a corridor are wrong, or nothing.
pub type Verdict = Result<(), String>;

/// Judges the rows of a request that is answered, all levels of corridor 0
/// first.
pub fn judge(request: &SheetRequest, rows: &[[f64; ROW]]) -> Verdict {
    let levels = request.ladder.len();
    if rows.len() != levels * request.corridors.len() {
        return Err(format!("{} rows", rows.len()));
    }
    for (k, (&(km, spread), rows)) in request
        .corridors
        .iter()
        .zip(rows.chunks(levels))
        .enumerate()
    {
        judge_corridor(&request.ladder, km, spread, rows)
            .map_err(|why| format!("corridor {k}: {why}"))?;
    }
    Ok(())
}

/// The class of a kV: its square, rounded once, against the product of two
/// neighbours, the lower on a tie. The products are exact.
pub fn class_of(kv: f64) -> &'static LineClass {
    let square = kv * kv;
    let lower = |pair: &[LineClass]| square <= pair[0].kv * pair[1].kv;
    let place = LINE_CLASSES.windows(2).position(lower);
    &LINE_CLASSES[place.unwrap_or(LINE_CLASSES.len() - 1)]
}

fn judge_corridor(ladder: &[f64], km: f64, spread: f64, rows: &[[f64; ROW]]) -> Verdict {
    // Every power of an accepted spread lies in here, and every loadability
    // between knots.
    let mut kept = Range::new(0.4, 2.4);
    let segment = segment_of(km);
    let mut load = match segment {
        Some(_) => Range::new(0.5, 3.5),
        None => Range::one(fixed_loadability(km)),
    };
    for (l, (&kv, &row)) in ladder.iter().zip(rows).enumerate() {
        judge_row(kv, km, spread, row, &mut kept, &mut load)
            .map_err(|why| format!("level {l}: {why}"))?;
    }
    if !power_is_near(spread, &kept) {
        return Err("no power of the spread within 1e-9 gives its rows".to_owned());
    }
    match segment {
        Some(segment) if !segment.is_near(km, &load) => {
            Err("no loadability within 1e-5 gives its rows".to_owned())
        }
        _ => Ok(()),
    }
}

/// One row; `kept` and `load` become those of their figures that give it.
fn judge_row(
    kv: f64,
    km: f64,
    spread: f64,
    [r, x, b, rate, basis]: [f64; ROW],
    kept: &mut Range,
    load: &mut Range,
) -> Verdict {
    let class = class_of(kv);
    let z = kv * kv / BASE_MVA;
    let r_of = |width: f64| class.r_ohm_per_km * km * width / z;
    let x_of = |width: f64| class.x_ohm_per_km * km * width / z;
    if class.kv >= EHV {
        kept.keep_equal(r_of, r);
        kept.keep_equal(x_of, x);
    } else {
        equal("r", r_of(spread), r)?;
        equal("x", x_of(spread), x)?;
    }
    equal("b", class.b_us_per_km * 1e-6 * km * z, b)?;
    let ratio = kv / class.kv;
    let thermal = class.thermal_mva * ratio;
    let limit = |m: f64| class.sil_mw * ratio * ratio * m;
    if basis == 1.0 {
        load.keep_equal(limit, rate);
        load.keep_while(|m| limit(m) < thermal);
    } else {
        equal("basis", 0.0, basis)?;
        equal("rate", thermal, rate)?;
        load.keep_from(|m| !(limit(m) < thermal));
    }
    match (kept.is_empty(), load.is_empty()) {
        (true, _) => Err("no power of the spread gives r and x".to_owned()),
        (_, true) => Err("no loadability gives rate and basis".to_owned()),
        _ => Ok(()),
    }
}

/// Zeros are one and so are NaNs, as where figures are listed.
fn equal(what: &str, ours: f64, theirs: f64) -> Verdict {
    match listed_bits(ours) == listed_bits(theirs) {
        true => Ok(()),
        false => Err(format!("{what} is {theirs:e}, not {ours:e}")),
    }
}

/// The loadability where the rules fix it.
fn fixed_loadability(km: f64) -> f64 {
    match km <= 80.0 {
        true => 240.0 / km.max(1e-3),
        false => (0.6 * (965.0 / km).sqrt()).max(0.4),
    }
}

/// Neighbouring figures above zero, by their bits, the end not included.
struct Range {
    start: u64,
    end: u64,
}

impl Range {
    fn new(least: f64, most: f64) -> Self {
        Self {
            start: least.to_bits(),
            end: most.to_bits() + 1,
        }
    }
    fn one(v: f64) -> Self {
        Self::new(v, v)
    }
    fn is_empty(&self) -> bool {
        self.start >= self.end
    }
    fn least(&self) -> f64 {
        f64::from_bits(self.start)
    }
    fn most(&self) -> f64 {
        f64::from_bits(self.end - 1)
    }
    /// The first that passes; all after it do, or none does and it is the end.
    fn first(&self, passes: impl Fn(f64) -> bool) -> u64 {
        let (mut start, mut end) = (self.start, self.end);
        while start < end {
            let middle = start + (end - start) / 2;
            match passes(f64::from_bits(middle)) {
                true => end = middle,
                false => start = middle + 1,
            }
        }
        start
    }
    fn keep_from(&mut self, passes: impl Fn(f64) -> bool) {
        self.start = self.first(passes);
    }
    fn keep_while(&mut self, passes: impl Fn(f64) -> bool) {
        self.end = self.first(|v| !passes(v));
    }
    /// Those where `f`, which never falls, is `v`.
    fn keep_equal(&mut self, f: impl Fn(f64) -> f64, v: f64) {
        self.keep_from(|x| f(x) >= v);
        self.keep_while(|x| f(x) <= v);
    }
}

/// A figure above zero that is no larger than 2^52 as n / 2^k.
fn fraction(v: f64) -> (u64, u32) {
    let bits = v.to_bits();
    let exponent = (bits >> 52) as u32;
    let n = bits & ((1 << 52) - 1) | 1 << 52;
    assert!((1..=1075).contains(&exponent), "{v:e} is out of place here");
    (n, 1075 - exponent)
}

/// Whether one of `kept` is within 1e-9 of the spread to the power 0.6:
/// (y - 1e-9)^5 ≤ s^3 of the least, and s^3 ≤ (y + 1e-9)^5 of the greatest.
fn power_is_near(spread: f64, kept: &Range) -> bool {
    let billion = Whole::from(1_000_000_000);
    let (s, s_digits) = fraction(spread);
    let step = |digits: u32| Whole::from(1).doubled(digits);
    // Both sides times the cube of s's denominator and the fifth power of y's.
    let cube = |digits: u32| {
        let denominator = billion.times(&step(digits));
        Whole::from(s).power(3).times(&denominator.power(5))
    };
    let fifth = |moved: Whole| moved.power(5).doubled(3 * s_digits);
    let (least, least_digits) = fraction(kept.least());
    let (most, most_digits) = fraction(kept.most());
    let below = Whole::from(least).times(&billion).less(&step(least_digits));
    let above = Whole::from(most).times(&billion).plus(&step(most_digits));
    fifth(below.expect("y is above 1e-9")) <= cube(least_digits)
        && cube(most_digits) <= fifth(above)
}

/// Two neighbouring knots: km, and hundredths of the surge impedance loading.
#[derive(Clone, Copy)]
struct Segment {
    near: u64,
    far: u64,
    high: u64,
    low: u64,
}

/// The segment of a length past 80 and up to 965 km.
fn segment_of(km: f64) -> Option<Segment> {
    if km <= KNOTS[0].0 as f64 {
        return None;
    }
    let pair = KNOTS.windows(2).find(|pair| km <= pair[1].0 as f64)?;
    let [(near, high), (far, low)] = [pair[0], pair[1]];
    Some(Segment {
        near,
        far,
        high,
        low,
    })
}

impl Segment {
    /// Whether one of `load` is within 1e-5 of high - (high - low) · t, with t
    /// the place of the length between the knots' logarithms. In hundredths
    /// and thousandths of them that is, of m = n / 2^k,
    ///   of the least      1000 · fall · t · 2^k ≤ (1000 · high + 1) · 2^k - 100,000 · n
    ///   of the greatest   1000 · fall · t · 2^k ≥ (1000 · high - 1) · 2^k - 100,000 · n
    fn is_near(&self, km: f64, load: &Range) -> bool {
        let fall = 1000 * (self.high - self.low);
        let rest = |high: u64, m: f64| {
            let (n, digits) = fraction(m);
            let whole = Whole::from(high).doubled(digits);
            let rest = whole.less(&Whole::from(100_000).times(&Whole::from(n)));
            (Whole::from(fall).doubled(digits), rest)
        };
        let (all, least) = rest(1000 * self.high + 1, load.least());
        let not_above = least.is_some_and(|least| !self.is_past(km, &least, &all));
        let (all, most) = rest(1000 * self.high - 1, load.most());
        not_above && most.is_none_or(|most| self.is_past(km, &most, &all))
    }

    /// Whether t is above p / q: p · ln (far / near) < q · ln (km / near), by
    /// whole numbers between which each logarithm lies. There is no tie to tell
    /// apart for ever: t is 1 or irrational, and no m makes p / q be 1.
    fn is_past(&self, km: f64, p: &Whole, q: &Whole) -> bool {
        let (n, digits) = fraction(km);
        let mut precision = DIGITS;
        loop {
            let (length_low, length_high) = half_logarithm(n, self.near << digits, precision);
            let (knots_low, knots_high) = half_logarithm(self.far, self.near, precision);
            if p.times(&knots_high) < q.times(&length_low) {
                return true;
            }
            if q.times(&length_high) <= p.times(&knots_low) {
                return false;
            }
            assert!(precision < 64 * DIGITS, "{km:e} km lies on the bound");
            precision *= 2;
        }
    }
}

/// Whole numbers between which half the natural logarithm of a / b lies, in
/// units of 2^-`digits`, for a from b to 2 · b: z + z^3 / 3 + z^5 / 5 and so
/// on, with z = (a - b) / (a + b), which is at most 1 / 3.
fn half_logarithm(a: u64, b: u64, digits: u32) -> (Whole, Whole) {
    // What is cut off is less than one unit each time, so the upper number has
    // a unit added for each cut.
    let sum = |unit: u64| {
        let unit = Whole::from(unit);
        let cut = |v: &Whole| v.halved(digits).plus(&unit);
        let z = Whole::from(a - b).doubled(digits).over(a + b).plus(&unit);
        let square = cut(&z.times(&z));
        let mut power = z.clone();
        let mut sum = z;
        // 9 · 9 · .. past 2^digits: then all that follows is below one unit.
        for i in 1..=u64::from(digits / 3) + 1 {
            power = cut(&power.times(&square));
            sum = sum.plus(&power.over(2 * i + 1).plus(&unit));
        }
        sum.plus(&unit)
    };
    (sum(0), sum(1))
}
