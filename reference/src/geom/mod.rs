//! The published planar geometry, of which planning needs the union-find.

pub mod delaunay;
