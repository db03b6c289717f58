//! Topology: the corridor as planning and placement see it.
// reference edit: building corridors (Delaunay meshes, random routes) is left
// out; of the corridor the role, the route and the Delaunay flag are left out.

/// One corridor between two buses; `circuits` parallel branches share it.
#[derive(Clone, Debug, PartialEq)]
pub struct Corridor {
    pub a: usize,
    pub b: usize,
    /// The higher of the two endpoint voltages.
    pub kv: f64,
    pub length_km: f64,
    pub circuits: u32,
    // reference edit
    /// Its own cap (document 02, K5); 0 for none.
    pub cap: u32,
}
