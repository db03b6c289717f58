//! The published electrical stage: what planning, dispatch, angles and
//! placement reach.

pub mod branches;
pub mod generators;
pub mod params;
pub mod planning;
pub mod reactive;
