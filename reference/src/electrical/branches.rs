//! Branch parameters: per-km class values times the corridor length with a
//! bounded log-normal spread, charging from the class table, a rating that is
//! the lesser of the conductor thermal limit and the St. Clair loadability,
//! and transformer impedance in series where the endpoints differ in voltage.
//! A rating is never raised above what the conductor and the line length
//! allow: a corridor that must carry more gets more circuits from the
//! corridor plan ([`crate::electrical::planning`]). Every circuit of one
//! corridor is built to the same design, as the circuits of a double-circuit
//! tower line are.

use crate::electrical::generators::DraftGenerator;
use crate::electrical::params::{
    class_ratio, line_class_for, st_clair_loadability, transformer_class_for, TRANSFORMER_HEADROOM,
    TRANSFORMER_MIN_MVA,
};
use crate::site::DraftBus;
use crate::topology::Corridor;

/// The electrical design of one circuit of a corridor.
#[derive(Clone, Debug, PartialEq)]
pub struct CircuitDesign {
    /// Higher voltage end.
    pub from: usize,
    pub to: usize,
    pub kv: f64,
    pub class_kv: f64,
    pub r_pu: f64,
    pub x_pu: f64,
    pub b_pu: f64,
    pub rate_a: f64,
    pub is_transformer: bool,
    pub transformer_mva: Option<f64>,
    pub winding_ratio: Option<f64>,
    pub length_km: f64,
    pub rating_basis: &'static str,
    /// The line alone, before any transformer: series r and x (pu), rating
    /// (MVA, before the spread) and its basis.
    pub line_r_pu: f64,
    pub line_x_pu: f64,
    pub line_rate: f64,
    pub line_basis: &'static str,
    /// The circuit's rating spread factor.
    pub rate_spread: f64,
}

impl CircuitDesign {
    /// Rate the circuit's step-down transformer at `mva`: its impedance
    /// follows the size class, and the circuit rating becomes the lesser of
    /// the transformer and the line.
    pub fn set_transformer_mva(&mut self, mva: f64) {
        let (rt, xt) = transformer_impedance(mva);
        self.r_pu = self.line_r_pu + rt;
        self.x_pu = self.line_x_pu + xt;
        let (rate, basis) = if mva < self.line_rate {
            (mva, "transformer")
        } else {
            (self.line_rate, self.line_basis)
        };
        self.rate_a = rate * self.rate_spread;
        self.rating_basis = basis;
        self.transformer_mva = Some(mva);
    }
}

// reference edit: `DraftBranch` and its route are left out.

/// System base, MVA.
pub const BASE_MVA: f64 = 100.0;

/// Share of the impedance spread (in log terms) extra-high-voltage classes
/// keep. Modelling choice from the concentration of Birchfield et al. 2017,
/// Fig. 7.
pub const EHV_SPREAD_SHARE: f64 = 0.6;

/// One row of the line sheet: one circuit of a corridor at one level.
// reference edit: the sheet stands for the class table and the spread.
#[derive(Clone, Copy, Debug, PartialEq)]
pub struct LineRow {
    /// The level's voltage, kV.
    pub kv: f64,
    pub r_pu: f64,
    pub x_pu: f64,
    pub b_pu: f64,
    /// Rating before the rate share, MVA, and its basis.
    pub rate: f64,
    pub basis: &'static str,
}

/// Per-unit line parameters on `BASE_MVA` and `kv`: `(r, x, b, rating MVA,
/// rating basis)`.
// reference edit: answers from the corridor's rows of the sheet. The levels of
// an accepted ladder differ and every bus takes its kV from the ladder, so
// exactly one row has this kV.
pub fn line_parameters(kv: f64, sheet: &[LineRow]) -> (f64, f64, f64, f64, &'static str) {
    let row = sheet
        .iter()
        .find(|row| row.kv == kv)
        .expect("every level has a row");
    (row.r_pu, row.x_pu, row.b_pu, row.rate, row.basis)
}

/// Per-unit line parameters on `BASE_MVA` and `kv` for `length_km` of the
/// class nearest `kv`, with impedance spread `spread`: `(r, x, b, rating MVA,
/// rating basis)`. A level between classes (220 kV, 34.5 kV) keeps the
/// class's conductors at its own voltage: the thermal rating scales with the
/// voltage at the same ampacity (`S = √3 V I`) and the surge impedance
/// loading with its square at the same surge impedance (`SIL = V² / Zc`).
// reference edit: published as `line_parameters`, the name that the one
// answering from the sheet has here.
pub fn class_line_parameters(
    kv: f64,
    length_km: f64,
    spread: f64,
) -> (f64, f64, f64, f64, &'static str) {
    let (class, ratio) = class_ratio(kv);
    // Extra-high-voltage lines follow a few standard bundle designs, so their
    // per-km reactance varies less: Birchfield et al. 2017, Fig. 7 puts over
    // half of the Eastern Interconnection's 500 kV lines within ±7% of the
    // median.
    let spread = if class.kv >= 345.0 {
        spread.powf(EHV_SPREAD_SHARE)
    } else {
        spread
    };
    let z_base = kv * kv / BASE_MVA;
    let x_ohm = class.x_ohm_per_km * length_km * spread;
    let r_ohm = class.r_ohm_per_km * length_km * spread;
    let b_siemens = class.b_us_per_km * 1e-6 * length_km;
    let thermal = class.thermal_mva * ratio;
    let loadability = class.sil_mw * ratio * ratio * st_clair_loadability(length_km);
    let (rate, basis) = if loadability < thermal {
        (loadability, "loadability")
    } else {
        (thermal, "thermal")
    };
    (
        r_ohm / z_base,
        x_ohm / z_base,
        b_siemens * z_base,
        rate,
        basis,
    )
}

/// Per-unit transformer impedance on `BASE_MVA` for a unit of `mva`.
pub fn transformer_impedance(mva: f64) -> (f64, f64) {
    let class = transformer_class_for(mva);
    let z = class.z_pu_own_base * BASE_MVA / mva;
    let x = z / (1.0 + 1.0 / (class.x_over_r * class.x_over_r)).sqrt();
    (x / class.x_over_r, x)
}

/// What a corridor's design draws on besides its ends, taken once so that
/// redesigning a corridor at another voltage (the corridor plan may promote
/// its ends) draws nothing new.
// reference edit: nothing is drawn at random; the sheet's rows stand for the
// spread and the case's rate share for the rating spread.
#[derive(Clone, Copy, Debug, PartialEq)]
pub struct CorridorDraw<'a> {
    /// The corridor's rows of the line sheet, one for each level.
    pub sheet: &'a [LineRow],
    /// Rating spread below the class figure.
    pub rate_spread: f64,
}

/// One circuit design per corridor at the buses' current voltages. A
/// corridor whose ends differ in voltage carries its line at the higher
/// voltage and a step-down transformer at the lower end, sized for that
/// bus's load or generation (whichever is larger) with planning headroom,
/// shared over the bus's transformer corridors.
pub fn design_circuits(
    buses: &[DraftBus],
    corridors: &[Corridor],
    generators: &[DraftGenerator],
    draws: &[CorridorDraw],
) -> Vec<CircuitDesign> {
    let n = buses.len();
    let mut gen_at = vec![0.0; n];
    for g in generators {
        gen_at[g.bus] += g.pmax_mw;
    }
    let steps_down = |c: &Corridor| (buses[c.a].base_kv - buses[c.b].base_kv).abs() > 1e-6;
    let mut transformer_corridors = vec![0usize; n];
    for c in corridors.iter().filter(|c| steps_down(c)) {
        let lo = if buses[c.a].base_kv < buses[c.b].base_kv {
            c.a
        } else {
            c.b
        };
        transformer_corridors[lo] += 1;
    }
    corridors
        .iter()
        .zip(draws)
        .map(|(c, draw)| {
            let (hi, lo) = if buses[c.a].base_kv >= buses[c.b].base_kv {
                (c.a, c.b)
            } else {
                (c.b, c.a)
            };
            let kv = buses[hi].base_kv;
            let transformer = steps_down(c);
            let (r, x, b, rate, basis) = line_parameters(kv, draw.sheet); // reference edit: from the sheet
            let mut design = CircuitDesign {
                from: hi,
                to: lo,
                kv,
                class_kv: line_class_for(kv).kv,
                r_pu: r,
                x_pu: x,
                b_pu: b,
                rate_a: rate * draw.rate_spread,
                is_transformer: transformer,
                transformer_mva: None,
                winding_ratio: transformer.then(|| buses[hi].base_kv / buses[lo].base_kv),
                length_km: c.length_km,
                rating_basis: basis,
                line_r_pu: r,
                line_x_pu: x,
                line_rate: rate,
                line_basis: basis,
                rate_spread: draw.rate_spread,
            };
            if transformer {
                let served = buses[lo].load_mw.max(gen_at[lo]) * TRANSFORMER_HEADROOM
                    / transformer_corridors[lo].max(1) as f64;
                design.set_transformer_mva(served.max(TRANSFORMER_MIN_MVA));
            }
            design
        })
        .collect()
}

// reference edit: `expand_circuits`, which draws routes, is left out.
