//! Many calls in one process: small jobs and refusals in turn, and the largest
//! accepted jobs, with the memory that the process holds before and after.

use std::time::Instant;

use faceting_register::bounds::workspace_length;
use faceting_register::job::rank_of;
use faceting_register::Engine;

use crate::cases::known_jobs::KNOWN_JOBS;
use crate::measure::workload::{self, Workload};

/// The memory that the process holds, in kilobytes, without its program's own pages,
/// which come and go as they are needed.
pub fn resident() -> Result<u64, String> {
    let status = std::fs::read_to_string("/proc/self/status");
    let status = status.map_err(|error| format!("cannot read /proc/self/status: {error}"))?;
    let line = status
        .lines()
        .find_map(|line| line.strip_prefix("RssAnon:"));
    let number = line.and_then(|line| line.split_whitespace().next()?.parse().ok());
    number.ok_or_else(|| "/proc/self/status does not tell RssAnon".into())
}

/// Jobs that are answered or refused in microseconds.
pub fn small_jobs() -> Result<Vec<Vec<u8>>, String> {
    let small = ["rank 2", "square", "three points", "1 point", "10 bytes"];
    let chosen = KNOWN_JOBS
        .iter()
        .filter(|known| small.iter().any(|word| known.name.contains(word)));
    chosen.map(|known| known.job()).collect()
}

/// The workloads whose names hold one of the words.
pub fn workloads(words: &[&str]) -> Vec<Workload> {
    let named = |one: &Workload| words.iter().any(|word| one.name.contains(word));
    workload::table().into_iter().filter(named).collect()
}

/// A run of calls: how many, how long they took, and the memory around them.
pub struct Run {
    /// How many calls were made.
    pub calls: u64,
    /// How many of them were answered.
    pub answered: u64,
    /// How long they took.
    pub seconds: f64,
    /// The memory before, in kilobytes.
    pub before: u64,
    /// The memory after, in kilobytes.
    pub after: u64,
}

/// Puts the jobs to the engine in turn, `count` calls in all. The first turn is
/// not counted, so that memory that is taken once is there before.
pub fn run(
    engine: &mut dyn Engine,
    jobs: &[Vec<u8>],
    count: u64,
    room: usize,
) -> Result<Run, String> {
    let mut answer = vec![0xa5; room];
    let mut call = |job: &Vec<u8>| {
        let rank = rank_of(job);
        engine.answer(job, workspace_length(rank), &mut answer)
    };
    for job in jobs {
        call(job);
    }
    let before = resident()?;
    let start = Instant::now();
    let mut answered = 0;
    for (_, job) in (0..count).zip(jobs.iter().cycle()) {
        answered += u64::from(call(job) >= 0);
    }
    Ok(Run {
        calls: count,
        answered,
        seconds: start.elapsed().as_secs_f64(),
        before,
        after: resident()?,
    })
}
