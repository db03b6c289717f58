//! Seeded requests and case files that reach every branch.

pub mod cases;
pub mod random;
pub mod requests;
pub mod seasons;
