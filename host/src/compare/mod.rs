//! Comparison with the original: outcome by outcome, call by call, of the
//! definitions, of copies with a porter's mistake, of rows with single calls, of the
//! plain entries and of jobs with packages with the original's.

pub mod definitions;
pub mod difference;
pub mod mutants;
pub mod noble;
pub mod plain;
pub mod pricing;
pub mod rows;
pub mod trials;

use faceting_register::bounds::workspace_length;

/// The workspace of a generated case: mostly that of rank 4; of every 64 cases the first
/// four have that of a lower rank, or one byte less than a rank's.
fn workspace_of(number: usize) -> usize {
    match number % 64 {
        0 => workspace_length(2),
        1 => workspace_length(3) - 1,
        2 => workspace_length(3),
        3 => workspace_length(4) - 1,
        _ => workspace_length(4),
    }
}
