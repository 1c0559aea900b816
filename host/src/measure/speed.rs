//! How long the register takes beside the original: the best of several runs of
//! each, taken in turn in one loop, with cleared buffers of the same lengths.

use std::time::{Duration, Instant};

use faceting_register::bounds::workspace_length;
use faceting_register::job::rank_of;

use crate::cases::{generator, Case};
use crate::engines::oracle::Oracle;
use crate::engines::Probe;

/// What is run of each job: at least so often, and so long on both sides together.
#[derive(Clone, Copy)]
pub struct Effort {
    /// At least so many runs.
    pub least: u32,
    /// At most so many.
    pub most: u32,
    /// For so long, between the two.
    pub time: Duration,
}

/// What both sides returned, and their best times.
pub struct Timing {
    /// What both returned.
    pub code: i64,
    /// Lists examined.
    pub examined: u32,
    /// The register's best time.
    pub register: Duration,
    /// The original's best time.
    pub original: Duration,
}

impl Timing {
    /// How many times as fast as the original the register is.
    pub fn ratio(&self) -> f64 {
        self.original.as_secs_f64() / self.register.as_secs_f64().max(1e-9)
    }

    /// Lists that the register examines in a second.
    pub fn lists_a_second(&self) -> f64 {
        f64::from(self.examined) / self.register.as_secs_f64().max(1e-9)
    }
}

/// Both sides of a measurement.
pub struct Stopwatch<'a> {
    /// The original.
    pub oracle: &'a mut Oracle,
    /// The register.
    pub register: &'a mut dyn Probe,
}

impl Stopwatch<'_> {
    /// Both sides on one job, or the words that say where they differ.
    pub fn time(&mut self, job: &[u8], effort: Effort) -> Result<Timing, String> {
        let rank = rank_of(job);
        let workspace = workspace_length(rank);
        let room = self.length(job, workspace);
        let mut best = [Duration::MAX; 2];
        let mut codes = [0; 2];
        let start = Instant::now();
        let mut runs = 0;
        while runs < effort.least || (runs < effort.most && start.elapsed() < effort.time) {
            let sides: [&mut dyn Probe; 2] = [self.register, self.oracle];
            for (side, engine) in sides.into_iter().enumerate() {
                let (code, time) = once(engine, job, workspace, room);
                codes[side] = code;
                best[side] = best[side].min(time);
            }
            runs += 1;
        }
        if codes[0] != codes[1] {
            return Err(format!(
                "the register returns {}, the Rust {}",
                codes[0], codes[1]
            ));
        }
        let events = self
            .oracle
            .last
            .as_ref()
            .map(|judged| judged.events.examined);
        Ok(Timing {
            code: codes[0],
            examined: events.unwrap_or(0),
            register: best[0],
            original: best[1],
        })
    }

    /// The register's best time on each of some jobs, taken in turn.
    pub fn best_of_each(&mut self, jobs: &[Vec<u8>], effort: Effort) -> Vec<Duration> {
        let asked: Vec<(usize, usize)> = jobs
            .iter()
            .map(|job| {
                let workspace = workspace_length(rank_of(job));
                (workspace, self.length(job, workspace))
            })
            .collect();
        let mut best = vec![Duration::MAX; jobs.len()];
        let start = Instant::now();
        let mut runs = 0;
        while runs < effort.least || (runs < effort.most && start.elapsed() < effort.time) {
            for (j, (job, &(workspace, room))) in jobs.iter().zip(&asked).enumerate() {
                let (_, time) = once(self.register, job, workspace, room);
                best[j] = best[j].min(time);
            }
            runs += 1;
        }
        best
    }

    /// The length of the answer; 0 for a job that is refused.
    fn length(&mut self, job: &[u8], workspace: usize) -> usize {
        let judged = self.oracle.judge(job, workspace);
        judged.result.map_or(0, |answer| 4 * answer.words().len())
    }

    /// The case, if either side takes longer than a millisecond for it.
    pub fn slow(&mut self, case: &Case, effort: Effort) -> Result<Option<Timing>, String> {
        let once = Effort {
            least: 1,
            most: 1,
            ..effort
        };
        let limit = Duration::from_millis(1);
        let first = self.time(&case.job, once)?;
        if first.original.max(first.register) < limit {
            return Ok(None);
        }
        let timed = self.time(&case.job, effort)?;
        Ok((timed.original.max(timed.register) >= limit).then_some(timed))
    }
}

/// One call on cleared buffers; clearing the workspace is not timed, and the answer
/// buffer is cleared by either side in its time.
fn once(engine: &mut dyn Probe, job: &[u8], workspace: usize, room: usize) -> (i64, Duration) {
    let mut answer = vec![0; room];
    engine.fill_workspace(0);
    let start = Instant::now();
    let code = engine.answer(job, workspace, &mut answer);
    (code, start.elapsed())
}

/// The generated cases of a seed, without those that are refused for their bytes.
pub fn cases(seed: u64, count: usize) -> impl Iterator<Item = Case> {
    (0..count).map(move |number| generator::case(seed, number, None))
}
