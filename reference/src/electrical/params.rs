//! Physical parameter tables. Every constant carries its source. Per unit
//! values are on a 100 MVA system base and the branch's nominal kV.
// reference edit: the tables that only the stages left out read are left out too.

/// A transmission line class: representative ACSR bundles per nominal voltage.
#[derive(Clone, Copy, Debug, PartialEq)]
pub struct LineClass {
    /// Nominal class voltage, kV.
    pub kv: f64,
    /// Positive-sequence series resistance, Ω/km.
    pub r_ohm_per_km: f64,
    /// Positive-sequence series reactance, Ω/km.
    pub x_ohm_per_km: f64,
    /// Positive-sequence shunt (charging) susceptance, µS/km.
    pub b_us_per_km: f64,
    /// Conductor thermal rating, MVA.
    pub thermal_mva: f64,
    /// Surge impedance loading, MW.
    pub sil_mw: f64,
}

/// Line classes.
///
/// source: r, x, b per km from Glover, Overbye, Sarma, *Power System Analysis
/// and Design* (6th ed.), Table A.4 and Example 4.x bundle geometries
/// (69 kV single 336.4 kcmil ACSR "Linnet", 0.19 Ω/km at 50 °C, 530 A;
/// 138 kV single 795 kcmil ACSR; 230 kV single 1272 kcmil; 345 kV 2×954
/// kcmil; 500 kV 3×954 kcmil; 765 kV 4×954 kcmil); thermal ratings from the
/// same conductor ampacities; SIL from Kundur, *Power System Stability and
/// Control*, Table 6.1 (69 kV ≈ 12 MW, 138 kV ≈ 50 MW, 230 kV ≈ 140 MW,
/// 345 kV ≈ 400 MW, 500 kV ≈ 900 MW, 765 kV ≈ 2200 MW). The 115 kV class
/// and the 500 kV reactance are the medians of the Eastern Interconnection
/// statistics in Birchfield et al. 2017, Tables 3–4 (115 kV: x 0.003398 pu/km
/// on 100 MVA, about 0.45 Ω/km, X/R 4.6, 160 MVA; 500 kV: x 0.000155 pu/km,
/// about 0.39 Ω/km, X/R 17), the survey the class set follows; the 500 kV
/// reactance sits a little below that median (0.375 Ω/km), calibrated on the
/// California Test System (docs/evidence/synth/cats/).
pub const LINE_CLASSES: [LineClass; 7] = [
    LineClass {
        kv: 69.0,
        r_ohm_per_km: 0.19,
        x_ohm_per_km: 0.48,
        b_us_per_km: 3.3,
        thermal_mva: 63.0,
        sil_mw: 12.5,
    },
    LineClass {
        kv: 115.0,
        r_ohm_per_km: 0.098,
        x_ohm_per_km: 0.45,
        b_us_per_km: 3.4,
        thermal_mva: 160.0,
        sil_mw: 35.0,
    },
    LineClass {
        kv: 138.0,
        r_ohm_per_km: 0.11,
        x_ohm_per_km: 0.48,
        b_us_per_km: 3.4,
        thermal_mva: 180.0,
        sil_mw: 50.0,
    },
    LineClass {
        kv: 230.0,
        r_ohm_per_km: 0.06,
        x_ohm_per_km: 0.45,
        b_us_per_km: 3.8,
        thermal_mva: 500.0,
        sil_mw: 140.0,
    },
    LineClass {
        kv: 345.0,
        r_ohm_per_km: 0.03,
        x_ohm_per_km: 0.35,
        b_us_per_km: 4.8,
        thermal_mva: 1200.0,
        sil_mw: 400.0,
    },
    LineClass {
        kv: 500.0,
        r_ohm_per_km: 0.022,
        x_ohm_per_km: 0.375,
        b_us_per_km: 5.6,
        thermal_mva: 2500.0,
        sil_mw: 900.0,
    },
    LineClass {
        kv: 765.0,
        r_ohm_per_km: 0.012,
        x_ohm_per_km: 0.26,
        b_us_per_km: 6.5,
        thermal_mva: 4500.0,
        sil_mw: 2200.0,
    },
];

/// The class whose nominal voltage is nearest `kv` (log distance, so 161 kV
/// snaps to 138 and 220 kV to 230). The class supplies per-km parameters; the
/// branch keeps its own kV for the per-unit base.
pub fn line_class_for(kv: f64) -> &'static LineClass {
    let target = kv.max(1.0).ln();
    LINE_CLASSES
        .iter()
        .min_by(|a, b| {
            (a.kv.ln() - target)
                .abs()
                .partial_cmp(&(b.kv.ln() - target).abs())
                .unwrap()
        })
        .expect("table is non-empty")
}

/// St. Clair loadability in multiples of SIL as a function of line length.
///
/// source: Dunlop, Gutman, Marchenko, "Analytical development of loadability
/// characteristics for EHV and UHV transmission lines", IEEE Trans. PAS-98
/// (1979), Fig. 2: about 3.0 SIL at 50 mi (80 km), 2.0 at 100 mi (160 km),
/// 1.35 at 200 mi (320 km), 1.0 at 300 mi (480 km), 0.85 at 400 mi (640 km),
/// 0.6 at 600 mi (965 km). Log-linear between the knots, extrapolated as
/// `0.6 · (965 / L)^0.5` beyond, floored at 0.4 SIL. Below 80 km the curve's
/// region is thermal: the stability limit rises as 1/L (the angle a line
/// carries at its limit is held at its 80 km value), so a short line is
/// rated by its conductor.
pub fn st_clair_loadability(length_km: f64) -> f64 {
    const KNOTS: [(f64, f64); 6] = [
        (80.0, 3.0),
        (160.0, 2.0),
        (320.0, 1.35),
        (480.0, 1.0),
        (640.0, 0.85),
        (965.0, 0.6),
    ];
    if length_km <= KNOTS[0].0 {
        return KNOTS[0].1 * KNOTS[0].0 / length_km.max(1e-3);
    }
    for w in KNOTS.windows(2) {
        let ((l0, m0), (l1, m1)) = (w[0], w[1]);
        if length_km <= l1 {
            let t = (length_km.ln() - l0.ln()) / (l1.ln() - l0.ln());
            return m0 + (m1 - m0) * t;
        }
    }
    (0.6 * (965.0 / length_km).sqrt()).max(0.4)
}

/// A two-winding transformer class by size.
#[derive(Clone, Copy, Debug, PartialEq)]
pub struct TransformerClass {
    /// Upper MVA bound of the class (inclusive); the last class is open.
    pub max_mva: f64,
    /// Impedance on the transformer's own base, per unit.
    pub z_pu_own_base: f64,
    pub x_over_r: f64,
}

/// Transformer classes.
///
/// source: Birchfield et al. 2017, Section 4 and Fig. 6: transformer
/// reactance on the transformer's own base is roughly normal about 0.12 pu,
/// with at least 80% of units within 0.05–0.2, in both the Eastern and
/// Western Interconnections; impedance rises with size (IEEE C57.12.10,
/// Table 10: 7.5–10.5% up to 100 MVA, 9–12% above), and Grainger &
/// Stevenson, *Power System Analysis*, Table A.1 give X/R ratios rising with
/// size (about 25 at 50 MVA, 35 at 200 MVA, 45 above 400 MVA).
pub const TRANSFORMER_CLASSES: [TransformerClass; 3] = [
    TransformerClass {
        max_mva: 100.0,
        z_pu_own_base: 0.12,
        x_over_r: 25.0,
    },
    TransformerClass {
        max_mva: 400.0,
        z_pu_own_base: 0.125,
        x_over_r: 35.0,
    },
    TransformerClass {
        max_mva: f64::INFINITY,
        z_pu_own_base: 0.13,
        x_over_r: 45.0,
    },
];

/// Smallest transformer the generator places, MVA.
pub const TRANSFORMER_MIN_MVA: f64 = 100.0;

/// Step to which the corridor plan rounds an enlarged transformer bank, MVA.
/// source: preferred power transformer ratings advance in steps of tens of
/// MVA (IEEE C57.12.10); 50 MVA is a coarse but standard granularity.
pub const TRANSFORMER_SIZE_STEP_MVA: f64 = 50.0;

/// Transformer size factor over the larger of local load and connected
/// generation (firm capacity with headroom). source: common utility planning
/// criterion of 20% headroom on substation transformation.
pub const TRANSFORMER_HEADROOM: f64 = 1.2;

pub fn transformer_class_for(mva: f64) -> &'static TransformerClass {
    TRANSFORMER_CLASSES
        .iter()
        .find(|c| mva <= c.max_mva)
        .unwrap_or(&TRANSFORMER_CLASSES[2])
}

/// The class a nominal voltage takes its parameters from, and the ratio of
/// that voltage to the class voltage. The same conductors and banks at the
/// bus's own voltage carry power in proportion to it (`S = √3 V I`), so
/// capacities quoted per class scale by this ratio.
pub fn class_ratio(kv: f64) -> (&'static LineClass, f64) {
    let class = line_class_for(kv);
    (class, kv / class.kv)
}

/// Corridor planning: circuits are added to a corridor until the planning
/// dispatch loads none of them above this share of its rating. source:
/// transmission expansion to the flows of the planned dispatch (Garver 1970,
/// "Transmission network estimation using linear programming", IEEE Trans.
/// PAS-89) under the NERC TPL-001 base case requirement that facilities stay
/// within their normal ratings; the 10% margin covers the losses and reactive
/// current a DC flow leaves out.
pub const PLANNING_UTILISATION: f64 = 0.9;

/// Planning rounds (each one DC power flow, adding capacity or stiffening)
/// before the plan is reported as unfinished. Adding circuits pulls flow onto
/// the strengthened corridors and stiffening moves flow again, so the plan
/// iterates; it usually settles within twenty rounds.
pub const PLANNING_MAX_ROUNDS: u32 = 64;

/// Widest angle between two buses of one island in the planning case,
/// radians: asin(0.7) ≈ 44.4°. source: the St. Clair loadability curve keeps
/// a 30% steady-state stability margin (Dunlop, Gutman, Marchenko 1979), so
/// a transfer path runs at most at sin δ = 0.7 of its maximum. A chain of
/// corridors each within its own St. Clair rating can still exceed that end
/// to end, so the plan holds the whole island to it.
pub const MAX_ANGLE_SPREAD_RAD: f64 = 0.775_397_496_610_753;

/// Share of an island's corridors one stiffening round reinforces, largest
/// first-order spread reduction first. A planning heuristic: small enough
/// that each round re-measures the spread before reinforcing more.
pub const STIFFENING_BATCH_SHARE: f64 = 0.05;

/// Branches per bus up to which the plan adds circuits to narrow an island's
/// angle spread; beyond it the spread is reported as unfinished rather than
/// met by a network denser than real ones. source: Birchfield et al. 2017
/// report branch-to-bus ratios of 1.2–1.5 for North American transmission
/// systems (the range of `density_branch_factor`); the budget leaves about a
/// tenth above the densest of them, a modelling choice.
pub const STIFFENING_BRANCH_BUDGET: f64 = 1.6;

/// Share of buses at or above the highest requested level up to which the
/// plan raises buses to narrow an island's angle spread. source: Birchfield
/// et al. 2017, Table II: 8–35% of buses sit at the highest voltage level of
/// the North American systems surveyed (the `hv_share` range of the
/// published calibration targets).
pub const STIFFENING_HV_SHARE: f64 = 0.35;

/// Circuits a corridor may need at its voltage before its ends are raised to
/// the next level. source: transmission planning chooses the voltage class
/// from the power and distance a corridor must carry, through each class's
/// St. Clair loadability (Dunlop, Gutman, Marchenko 1979; EPRI,
/// *Transmission Line Reference Book, 345 kV and Above*): where a corridor
/// would need a third circuit at its voltage, one circuit at the next level
/// carries the same power on less right of way and with a smaller angle.
pub const UPGRADE_CIRCUITS: u32 = 2;

/// Circuits one corridor may hold; a corridor that needs more raises its ends
/// along the voltage ladder (up to the highest level in service, see
/// `crate::voltage`) instead. source: double and
/// quadruple circuit lines are common in Germany, India, Japan and China and
/// six-circuit lines rare (Acosta and Tavares, IPST 2019); in the
/// OpenStreetMap-based European grid (Xiong et al., *Scientific Data* 12:277,
/// 2025, Zenodo dataset v0.3) 99.5% of the 7,100 overhead lines at 220 kV and
/// above carry one or two circuits per voltage level and none more than four.
pub const MAX_CIRCUITS_PER_CORRIDOR: u32 = 4;

/// Corridor-km from the nearest generator beyond which a loaded bus gets a
/// synchronous condenser for voltage support (the default of
/// [`crate::tuning::Tuning::voltage_support_km`]). source: reactive power is
/// supplied close to where it is used, because carrying it over long lines
/// costs voltage and losses that grow with the distance (Kundur, *Power
/// System Stability and Control*, Section 11.2); voltage control areas span
/// tens to a little over a hundred kilometres. The earlier 480 km, where the
/// St. Clair curve reaches 1.0 SIL (Dunlop, Gutman, Marchenko 1979), is a
/// stability limit for transfer paths, not a voltage control distance: at
/// 100 km the AC power flow of the country sweep converges inside 0.9–1.1 pu
/// in 53 of 54 runs, against 49 at 480 km (docs/evidence/synth/).
pub const VOLTAGE_SUPPORT_KM: f64 = 100.0;

/// Reactive range of a synchronous condenser, MVAr per MW of the load it lies
/// nearest to: the ±0.33 MVAr/MW of a 0.95 power-factor load, rounded up to
/// leave headroom. Modelling choice.
pub const VOLTAGE_SUPPORT_Q_SHARE: f64 = 0.5;

/// Smallest shunt bank the reactive plan installs, MVAr; a smaller imbalance
/// is left to the network. source: IEEE Std 1036, *Guide for the Application
/// of Shunt Power Capacitors*: transmission banks switch in steps of a few to
/// a few tens of MVAr, and 5 MVAr is a small 69–138 kV step.
pub const MIN_SHUNT_BANK_MVAR: f64 = 5.0;
