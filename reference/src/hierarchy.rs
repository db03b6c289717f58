//! Hierarchical networks, for ladders that reach subtransmission (a level
//! below [`SUBTRANSMISSION_KV`]).
// reference edit: of this file only the constant is kept.

/// Nominal voltage below which a level is subtransmission, kV. source: IEC
/// 60038 and ANSI C84.1 place subtransmission at 34.5–69 kV (up to 115/138
/// kV in some utilities); every national transmission model of the voltage
/// table stops at 110 kV or above.
pub const SUBTRANSMISSION_KV: f64 = 100.0;
