//! The reference build: the published planner with only the edits that
//! document 01 names, and the harness around it that makes it a judge. A test
//! or a benchmark may link this library; the program is in main.rs.

// The published code, file by file as published.
pub mod electrical;
pub mod geom;
pub mod hierarchy;
pub mod site;
pub mod topology;
pub mod tuning;

// The harness.
pub mod compare;
pub mod differences;
pub mod generate;
pub mod harness;
pub mod joins;
pub mod judge;
pub mod moves;
pub mod previews;
pub mod tally;
pub mod targets;
pub mod theorem;
pub mod watch;
pub mod whole;
