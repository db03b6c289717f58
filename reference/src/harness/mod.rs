//! What stands between the published code and the outside: refusals, case
//! files, the listing, and requests for single operations.

pub mod answers;
pub mod case_file;
pub mod case_text;
pub mod checks;
pub mod figures;
pub mod join;
pub mod listing;
pub mod moves;
pub mod operations;
pub mod plan;
pub mod preview;
pub mod refusal;
pub mod season;
pub mod serving;
pub mod sheet;
pub mod small;
pub mod tables;
