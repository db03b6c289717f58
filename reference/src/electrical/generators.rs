//! Generation: the unit as planning and placement see it.
// reference edit: siting and sizing units draws at random and is left out; of
// the unit the fuel, the makeup mark, the fixed cost and the lower reactive
// limit are left out.

#[derive(Clone, Debug, PartialEq)]
pub struct DraftGenerator {
    pub bus: usize,
    pub pmax_mw: f64,
    pub pmin_mw: f64,
    pub qmax_mvar: f64,
    pub c2: f64,
    pub c1: f64,
    pub slack: bool,
    /// A synchronous condenser: voltage support with no active power
    /// (`pmax_mw` 0), placed by [`crate::electrical::reactive::place_voltage_support`].
    pub condenser: bool,
}
