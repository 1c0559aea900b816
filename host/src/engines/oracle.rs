//! The original as an engine: the whole way from job bytes to answer bytes [1.1],
//! with the original function in the middle.

use std::fmt;

use faceting_register::plain::bytes;
use faceting_register::{job, noble, Answer, Engine, Job, Package, Refusal, Stop};

use super::Probe;
use crate::engines::judgement::{Bounds, Events, Judgement};
#[cfg(has_miratope)]
use crate::engines::original::{faceting, plain_lists};

/// The original's source was not there when this crate was built.
#[derive(Clone, Copy, Debug, PartialEq, Eq)]
pub struct NoSource;

impl fmt::Display for NoSource {
    fn fmt(&self, f: &mut fmt::Formatter<'_>) -> fmt::Result {
        f.write_str(
            "the Rust source is not there: \
             set MIRATOPE_SRC to the folder that holds miratope-core/src, then build again",
        )
    }
}

impl std::error::Error for NoSource {}

/// What a call returns if the original panics, which is no result of a job.
pub const BROKEN: i64 = i64::MIN;

/// Made by `open` alone, so that there is one only where the original is.
pub struct Oracle {
    /// The bounds it runs under.
    pub bounds: Bounds,
    /// What the latest call found.
    pub last: Option<Judgement>,
}

impl Oracle {
    /// The original, where its source is there.
    pub fn open() -> Result<Oracle, NoSource> {
        if !cfg!(has_miratope) {
            return Err(NoSource);
        }
        Ok(Oracle {
            bounds: Bounds::default(),
            last: None,
        })
    }

    /// All refusals but the last, which is the buffer's.
    pub fn judge(&self, bytes: &[u8], workspace: usize) -> Judgement {
        let accepted = job::accept(bytes, workspace);
        self.run(accepted.map(|job| (job, None)))
    }

    /// The same with a package.
    pub fn judge_noble(&self, bytes: &[u8], package: &[u8], workspace: usize) -> Judgement {
        let accepted = noble::accept(bytes, package, workspace);
        self.run(accepted.map(|(job, package)| (job, Some(package))))
    }

    /// What was accepted, run.
    fn run(&self, accepted: Result<(Job, Option<Package>), Refusal>) -> Judgement {
        match accepted {
            Err(refusal) => Judgement {
                result: Err(Stop::Refused(refusal)),
                events: Events::default(),
                job: None,
            },
            Ok((job, package)) => {
                let (result, events) = faceting(&job, package.as_ref(), &self.bounds);
                Judgement {
                    result,
                    events,
                    job: Some(job),
                }
            }
        }
    }
}

#[cfg(not(has_miratope))]
fn faceting(
    _job: &Job,
    _package: Option<&Package>,
    _bounds: &Bounds,
) -> (Result<Answer, Stop>, Events) {
    (Err(Stop::Broken(NoSource.to_string())), Events::default())
}

/// Without the original there is no `Oracle`, and nobody asks.
#[cfg(not(has_miratope))]
fn plain_lists(_lists: &Vec<Vec<(usize, usize)>>) -> Vec<usize> {
    Vec::new()
}

/// The numbers of the entries that the original's `filter_irc` keeps.
pub fn kept(answer: &Answer) -> Vec<u32> {
    let lists = answer.entries.iter().map(|entry| {
        let item = |&(orbit, facet): &(u32, u32)| (orbit as usize, facet as usize);
        entry.list.iter().map(item).collect()
    });
    let kept = plain_lists(&lists.collect());
    kept.into_iter().map(|number| number as u32).collect()
}

/// Fills the buffer as the exported call does and returns its value.
pub fn fill(result: &Result<Answer, Stop>, answer: &mut [u8]) -> Result<i64, String> {
    fill_with(result, Answer::bytes, answer)
}

/// The same with what is written of an answer.
fn fill_with(
    result: &Result<Answer, Stop>,
    written: impl Fn(&Answer) -> Vec<u8>,
    answer: &mut [u8],
) -> Result<i64, String> {
    answer.fill(0);
    match result {
        Err(Stop::Broken(words)) => Err(format!("the original panicked: {words}")),
        Err(Stop::Refused(refusal)) => Ok(refusal.code()),
        Ok(found) => {
            let bytes = written(found);
            let Some(front) = answer.get_mut(..bytes.len()) else {
                return Ok(Refusal::Room.code());
            };
            front.copy_from_slice(&bytes);
            Ok(bytes.len() as i64)
        }
    }
}

impl Probe for Oracle {}

impl Engine for Oracle {
    fn name(&self) -> &'static str {
        "original"
    }

    fn answer(&mut self, job: &[u8], workspace: usize, answer: &mut [u8]) -> i64 {
        let judged = self.judge(job, workspace);
        let code = fill(&judged.result, answer).unwrap_or(BROKEN);
        self.last = Some(judged);
        code
    }

    fn plain(&mut self, job: &[u8], workspace: usize, answer: &mut [u8]) -> Option<i64> {
        let judged = self.judge(job, workspace);
        let written = |found: &Answer| bytes(&kept(found));
        Some(fill_with(&judged.result, written, answer).unwrap_or(BROKEN))
    }

    fn noble(
        &mut self,
        job: &[u8],
        package: &[u8],
        workspace: usize,
        answer: &mut [u8],
    ) -> Option<i64> {
        let judged = self.judge_noble(job, package, workspace);
        let code = fill(&judged.result, answer).unwrap_or(BROKEN);
        self.last = Some(judged);
        Some(code)
    }
}
