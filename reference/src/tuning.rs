//! Tunable constants of the hierarchical network design and the generation
//! fleet, with their defaults.
// reference edit: only the distance that placement reads is kept, and no
// caller may override it.

use std::sync::OnceLock;

/// The tunable constants.
#[derive(Clone, Debug, PartialEq)]
pub struct Tuning {
    /// Corridor-km from the nearest generator beyond which a loaded bus gets
    /// a synchronous condenser (see `electrical::params::VOLTAGE_SUPPORT_KM`).
    pub voltage_support_km: f64,
}

impl Default for Tuning {
    fn default() -> Self {
        Self {
            voltage_support_km: crate::electrical::params::VOLTAGE_SUPPORT_KM,
        }
    }
}

static TUNING: OnceLock<Tuning> = OnceLock::new();

/// The constants in effect for this process.
pub fn tuning() -> &'static Tuning {
    TUNING.get_or_init(Tuning::default)
}
