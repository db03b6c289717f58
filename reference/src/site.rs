//! Bus siting: the bus as planning and placement see it.
// reference edit: siting draws at random and is left out; of the bus only the
// fields that planning or placement reads are kept (no place, kind,
// annotation or coordinates).

/// A sited bus before electrification.
#[derive(Clone, Debug, PartialEq)]
pub struct DraftBus {
    /// 0 = highest voltage level.
    pub tier: usize,
    pub base_kv: f64,
    pub load_mw: f64,
}
