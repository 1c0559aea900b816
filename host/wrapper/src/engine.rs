//! What answers a job: the exported call's form, so that several engines can be
//! run on the same jobs.

use std::fmt;

use crate::refusal::Refusal;

/// Something that answers jobs as the exported function does.
pub trait Engine {
    /// What pages and results call it.
    fn name(&self) -> &'static str;

    /// Job, workspace and answer buffer in; the answer's length or minus the refusal
    /// number out, with the answer at the front of the buffer and zeros behind it.
    fn answer(&mut self, job: &[u8], workspace: usize, answer: &mut [u8]) -> i64;

    /// A row of jobs in; the length of their records or minus a refusal number out.
    /// None where the engine answers one job at a time.
    fn answer_row(&mut self, _row: &[u8], _workspace: usize, _answer: &mut [u8]) -> Option<i64> {
        None
    }

    /// How many plain entries the job has and the number of each, as u32 in the buffer;
    /// their length in bytes or minus a refusal number. None where the engine has no
    /// such call.
    fn plain(&mut self, _job: &[u8], _workspace: usize, _answer: &mut [u8]) -> Option<i64> {
        None
    }

    /// Job, package, workspace and answer buffer in; the rest as `answer` has it. None
    /// where the engine has no such call.
    fn noble(
        &mut self,
        _job: &[u8],
        _package: &[u8],
        _workspace: usize,
        _answer: &mut [u8],
    ) -> Option<i64> {
        None
    }
}

/// Why a job has no answer.
#[derive(Clone, Debug, PartialEq, Eq)]
pub enum Stop {
    /// The job was refused.
    Refused(Refusal),
    /// The engine did what no engine should; in words.
    Broken(String),
}

impl fmt::Display for Stop {
    fn fmt(&self, f: &mut fmt::Formatter<'_>) -> fmt::Result {
        match self {
            Stop::Refused(refusal) => write!(f, "{refusal}"),
            Stop::Broken(words) => f.write_str(words),
        }
    }
}

impl std::error::Error for Stop {}
