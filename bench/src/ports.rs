//! The proved operations under their C names: each slice is a pointer and a length, each answer a struct. crates/exports_c has
//! their contracts, crates/exports the structs. That the declarations here are those of the archive shows only where both sides
//! answer alike.

/// What `dc_angles` answers: the refusal's number and index, or 0 and how the solve ended.
#[repr(C)]
#[derive(Clone, Copy, Debug, PartialEq)]
pub struct AnglesSaid {
    pub refusal: u32,
    pub index: usize,
    pub steps: usize,
    /// 1 settled, 2 no descent, 3 steps spent.
    pub ended: u32,
    pub figure: f64,
}

/// What `read_case` answers: the refusal's number and index, or 0 and the header; and the looks.
#[repr(C)]
#[derive(Clone, Copy, Debug, PartialEq)]
pub struct ReadingSaid {
    pub refusal: u32,
    pub index: usize,
    pub mode: u32,
    pub target: u32,
    pub buses: usize,
    pub corridors: usize,
    pub generators: usize,
    pub above: usize,
    pub requested: usize,
    /// The words and bytes looked at after the last record.
    pub looks: usize,
}

/// What an operation answers that leaves its results in a slice: the refusal's number and index, or 0.
#[repr(C)]
#[derive(Clone, Copy, Debug, PartialEq)]
pub struct AnswerSaid {
    pub refusal: u32,
    pub index: usize,
}

/// What `place_voltage_support` answers: the refusal's number and index, or 0 and the count of condensers.
#[repr(C)]
#[derive(Clone, Copy, Debug, PartialEq)]
pub struct PlacementSaid {
    pub refusal: u32,
    pub index: usize,
    pub count: usize,
}

extern "C" {
    fn lopnaski_dc_angles(
        n: usize,
        m: usize,
        k: usize,
        from: *const u32,
        from_len: usize,
        to: *const u32,
        to_len: usize,
        weight: *const f64,
        weight_len: usize,
        injection: *const f64,
        injection_len: usize,
        grounds: *const u32,
        grounds_len: usize,
        guess: *const f64,
        guess_len: usize,
        result: *mut f64,
        result_len: usize,
        work: *mut f64,
        work_len: usize,
    ) -> AnglesSaid;
    fn lopnaski_read_case(
        file: *const u8,
        file_len: usize,
        ladder: *mut f64,
        ladder_len: usize,
        tier: *mut u32,
        tier_len: usize,
        reading: *mut f64,
        reading_len: usize,
        weight: *mut f64,
        weight_len: usize,
        generator_bus: *mut u32,
        generator_bus_len: usize,
        slack: *mut u32,
        slack_len: usize,
        pmin: *mut f64,
        pmin_len: usize,
        pmax: *mut f64,
        pmax_len: usize,
        c1: *mut f64,
        c1_len: usize,
        c2: *mut f64,
        c2_len: usize,
        a: *mut u32,
        a_len: usize,
        b: *mut u32,
        b_len: usize,
        circuits: *mut u32,
        circuits_len: usize,
        length_km: *mut f64,
        length_km_len: usize,
        share: *mut f64,
        share_len: usize,
        cap: *mut u32,
        cap_len: usize,
        sheet: *mut f64,
        sheet_len: usize,
    ) -> ReadingSaid;
    fn lopnaski_line_sheet(
        levels: usize,
        corridors: usize,
        ladder: *const f64,
        ladder_len: usize,
        km: *const f64,
        km_len: usize,
        spread: *const f64,
        spread_len: usize,
        sheet: *mut f64,
        sheet_len: usize,
    ) -> AnswerSaid;
    fn lopnaski_economic_dispatch(
        units: usize,
        pmin: *const f64,
        pmin_len: usize,
        pmax: *const f64,
        pmax_len: usize,
        c1: *const f64,
        c1_len: usize,
        c2: *const f64,
        c2_len: usize,
        demand: f64,
        mw: *mut f64,
        mw_len: usize,
    ) -> AnswerSaid;
    fn lopnaski_leaders(
        buses: usize,
        corridors: usize,
        a: *const u32,
        a_len: usize,
        b: *const u32,
        b_len: usize,
        leader: *mut u32,
        leader_len: usize,
    ) -> AnswerSaid;
    fn lopnaski_place_voltage_support(
        n: usize,
        m: usize,
        g: usize,
        reading: *const f64,
        reading_len: usize,
        weight: *const f64,
        weight_len: usize,
        a: *const u32,
        a_len: usize,
        b: *const u32,
        b_len: usize,
        km: *const f64,
        km_len: usize,
        generators: *const u32,
        generators_len: usize,
        buses: *mut u32,
        buses_len: usize,
        mvars: *mut f64,
        mvars_len: usize,
    ) -> PlacementSaid;
}

/// A network to solve, in the port's columns.
pub struct Request {
    pub from: Vec<u32>,
    pub to: Vec<u32>,
    pub weight: Vec<f64>,
    pub injection: Vec<f64>,
    pub grounds: Vec<u32>,
    pub guess: Vec<f64>,
}

/// The angles are in `result`.
pub fn dc_angles(q: &Request, result: &mut [f64], work: &mut [f64]) -> AnglesSaid {
    unsafe {
        lopnaski_dc_angles(
            q.injection.len(),
            q.from.len(),
            q.grounds.len(),
            q.from.as_ptr(),
            q.from.len(),
            q.to.as_ptr(),
            q.to.len(),
            q.weight.as_ptr(),
            q.weight.len(),
            q.injection.as_ptr(),
            q.injection.len(),
            q.grounds.as_ptr(),
            q.grounds.len(),
            q.guess.as_ptr(),
            q.guess.len(),
            result.as_mut_ptr(),
            result.len(),
            work.as_mut_ptr(),
            work.len(),
        )
    }
}

/// The tables of a case at their largest size.
pub struct Tables {
    /// Ladder, readings, weights, pmin, pmax, c1, c2, lengths, shares, the sheet.
    pub figures: Vec<Vec<f64>>,
    /// Tiers, the generators' buses, slack, the corridors' two ends, circuits, caps.
    pub wholes: Vec<Vec<u32>>,
}

impl Tables {
    pub fn new() -> Self {
        let figures = [5, 256, 256, 128, 128, 128, 128, 256, 256, 6400];
        let wholes = [256, 128, 128, 256, 256, 256, 256];
        Self {
            figures: figures.iter().map(|&n| vec![0.0; n]).collect(),
            wholes: wholes.iter().map(|&n| vec![0; n]).collect(),
        }
    }
}

pub fn read_case(file: &[u8], t: &mut Tables) -> ReadingSaid {
    let f: Vec<(*mut f64, usize)> = t
        .figures
        .iter_mut()
        .map(|v| (v.as_mut_ptr(), v.len()))
        .collect();
    let w: Vec<(*mut u32, usize)> = t
        .wholes
        .iter_mut()
        .map(|v| (v.as_mut_ptr(), v.len()))
        .collect();
    unsafe {
        lopnaski_read_case(
            file.as_ptr(),
            file.len(),
            f[0].0,
            f[0].1,
            w[0].0,
            w[0].1,
            f[1].0,
            f[1].1,
            f[2].0,
            f[2].1,
            w[1].0,
            w[1].1,
            w[2].0,
            w[2].1,
            f[3].0,
            f[3].1,
            f[4].0,
            f[4].1,
            f[5].0,
            f[5].1,
            f[6].0,
            f[6].1,
            w[3].0,
            w[3].1,
            w[4].0,
            w[4].1,
            w[5].0,
            w[5].1,
            f[7].0,
            f[7].1,
            f[8].0,
            f[8].1,
            w[6].0,
            w[6].1,
            f[9].0,
            f[9].1,
        )
    }
}

/// What the operation answers. The rows are in `sheet`.
pub fn line_sheet(ladder: &[f64], km: &[f64], spread: &[f64], sheet: &mut [f64]) -> AnswerSaid {
    unsafe {
        lopnaski_line_sheet(
            ladder.len(),
            km.len(),
            ladder.as_ptr(),
            ladder.len(),
            km.as_ptr(),
            km.len(),
            spread.as_ptr(),
            spread.len(),
            sheet.as_mut_ptr(),
            sheet.len(),
        )
    }
}

/// The MW are in `mw`. The columns are pmin, pmax, c1 and c2.
pub fn dispatch_columns(columns: &[Vec<f64>], demand: f64, mw: &mut [f64]) -> AnswerSaid {
    let [pmin, pmax, c1, c2] = columns else {
        panic!("four columns");
    };
    unsafe {
        lopnaski_economic_dispatch(
            pmin.len(),
            pmin.as_ptr(),
            pmin.len(),
            pmax.as_ptr(),
            pmax.len(),
            c1.as_ptr(),
            c1.len(),
            c2.as_ptr(),
            c2.len(),
            demand,
            mw.as_mut_ptr(),
            mw.len(),
        )
    }
}

/// The leaders are in `leader`, of which there are as many as buses.
pub fn leaders(a: &[u32], b: &[u32], leader: &mut [u32]) -> AnswerSaid {
    unsafe {
        lopnaski_leaders(
            leader.len(),
            a.len(),
            a.as_ptr(),
            a.len(),
            b.as_ptr(),
            b.len(),
            leader.as_mut_ptr(),
            leader.len(),
        )
    }
}

/// What placement is asked, in the port's columns.
pub struct PlacementColumns {
    pub reading: Vec<f64>,
    pub weight: Vec<f64>,
    pub a: Vec<u32>,
    pub b: Vec<u32>,
    pub km: Vec<f64>,
    pub generators: Vec<u32>,
}

impl PlacementColumns {
    /// The condensers' buses and Mvar are in the two slices.
    pub fn place(&self, buses: &mut [u32], mvars: &mut [f64]) -> PlacementSaid {
        unsafe {
            lopnaski_place_voltage_support(
                self.reading.len(),
                self.a.len(),
                self.generators.len(),
                self.reading.as_ptr(),
                self.reading.len(),
                self.weight.as_ptr(),
                self.weight.len(),
                self.a.as_ptr(),
                self.a.len(),
                self.b.as_ptr(),
                self.b.len(),
                self.km.as_ptr(),
                self.km.len(),
                self.generators.as_ptr(),
                self.generators.len(),
                buses.as_mut_ptr(),
                buses.len(),
                mvars.as_mut_ptr(),
                mvars.len(),
            )
        }
    }
}
