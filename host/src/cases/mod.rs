//! Cases: files of them, where they come from, and what a run of them meets.

mod file;
pub mod generator;
pub mod known_jobs;
pub mod record;
pub mod run;
pub mod sample;
pub mod tally;

pub use file::{Case, Numbered, Outcome, Room, Stream, CASES_HEAD, RESULTS_HEAD};
