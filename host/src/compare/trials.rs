//! A job is judged once by the original, which takes the time, and put to another
//! engine in many ways: with buffers exactly full and a byte too short, with lengths
//! around every bound, and as a damaged copy. Every byte and every refusal must be
//! what the original's verdict says; where only the lists before splitting differ from
//! those that the original had before it split them, it is said. The figures of each
//! answer are looked at too: rows that are closed under composition carry them to
//! themselves.

use std::collections::BTreeMap;
use std::time::{Duration, Instant};

use faceting_register::bounds::{self, workspace_length};
use faceting_register::{job, Answer, Job, Refusal, Stop};

use crate::cases::generator::rng::{mix, Rng};
use crate::cases::tally::Tally;
use crate::cases::{Case, Outcome, Room};
use crate::compare::difference::difference;
use crate::engines::fence::Fence;
use crate::engines::judgement::{Events, Judgement};
use crate::engines::oracle::{Oracle, BROKEN};
use crate::engines::Probe;
use crate::symmetry::Carried;

/// What a buffer holds beforehand: an engine must leave none of it.
const POISONS: [u8; 3] = [0xa5, 0xff, 0x01];

/// The call whose answer is looked at beside the comparison.
const EXACTLY_FULL: &str = "buffer exactly full";

/// A damaged budget may ask for more time than a trial should take.
const DAMAGED_BUDGET: u32 = 2_000;

/// What the original says of a job, however long workspace and buffer are.
pub struct Verdict {
    judged: Judgement,
    bytes: Vec<u8>,
}

impl Verdict {
    /// The original's verdict on a job.
    pub fn of(oracle: &Oracle, job: &[u8]) -> Self {
        let judged = oracle.judge(job, usize::MAX);
        let bytes = judged.result.as_ref().map_or(vec![], |found| found.bytes());
        Self { judged, bytes }
    }

    /// The returned value, and the bytes in front of the zeros.
    fn expected(&self, trial: &Trial) -> (i64, &[u8]) {
        if let Err(refusal) = job::accept(&trial.job, trial.workspace) {
            return (refusal.code(), &[]);
        }
        match &self.judged.result {
            Err(Stop::Refused(refusal)) => (refusal.code(), &[]),
            Err(Stop::Broken(_)) => (BROKEN, &[]),
            Ok(_) if self.bytes.len() > trial.room => (Refusal::Room.code(), &[]),
            Ok(_) => (self.bytes.len() as i64, &self.bytes),
        }
    }

    /// The verdict at a workspace of that length, for the tally.
    fn told(&self, tally: &mut Tally, trial: &Trial) {
        let (code, _) = self.expected(trial);
        match job::accept(&trial.job, trial.workspace) {
            Ok(_) => tally.add(&self.judged, code),
            Err(refusal) => tally.add(&stopped(refusal), code),
        }
    }
}

/// A job that went no further than its bytes.
fn stopped(refusal: Refusal) -> Judgement {
    Judgement {
        result: Err(Stop::Refused(refusal)),
        events: Events::default(),
        job: None,
    }
}

/// One call.
pub struct Trial {
    /// What is particular about it.
    pub name: &'static str,
    /// The job's bytes.
    pub job: Vec<u8>,
    /// The length of the workspace.
    pub workspace: usize,
    /// The length of the answer buffer.
    pub room: usize,
}

/// The calls that share the case's verdict, the case itself first.
fn trials(case: &Case, verdict: &Verdict) -> Vec<Trial> {
    let length = verdict.bytes.len();
    let trial = |name, workspace, room| Trial {
        name,
        job: case.job.clone(),
        workspace,
        room,
    };
    let room = match case.room {
        Room::Bytes(room) => room,
        Room::Fit(more) => length.saturating_add_signed(more),
    };
    let mut list = vec![trial("as generated", case.workspace, room)];
    let rank = job::rank_of(&case.job);
    let asked = workspace_length(rank);
    match length {
        0 => list.push(trial("refused, exact workspace", asked, case.number % 9)),
        _ => {
            list.push(trial(EXACTLY_FULL, asked, length));
            list.push(trial("buffer one byte short", asked, length - 1));
        }
    }
    if asked > 0 {
        list.push(trial("workspace one byte short", asked - 1, length));
    }
    list
}

/// Copies of the job that need verdicts of their own; a job that was cut may be
/// whole again with one byte more.
fn copies(case: &Case) -> impl Iterator<Item = Trial> {
    let copy = |name, job| Trial {
        name,
        job,
        workspace: bounds::WORKSPACE,
        room: 1 << 16,
    };
    let shorter = case.job[..case.job.len().saturating_sub(1)].to_vec();
    let longer = [&case.job[..], &[0]].concat();
    let cut = [
        copy("job one byte short", shorter),
        copy("job one byte long", longer),
    ];
    let damaged = damaged(case).map(|job| copy("damaged copy", job));
    cut.into_iter().chain(damaged)
}

/// A copy of the job with one byte altered, in the header as often as behind it.
fn damaged(case: &Case) -> Option<Vec<u8>> {
    let mut rng = Rng::new(mix(case.seed ^ 0xda));
    let mut job = case.job.clone();
    let end = match rng.once_in(2) {
        true => job.len().min(job::HEADER_LENGTH),
        false => job.len(),
    };
    let place = rng.below(end.max(1));
    *job.get_mut(place)? ^= 1 << rng.below(8);
    if let Some(mut read) = Job::read(&job) {
        read.budget = read.budget.min(DAMAGED_BUDGET);
        job = read.write();
    }
    Some(job)
}

/// How often something was called, and how many of the calls were answered.
#[derive(Default)]
pub struct Calls {
    /// All calls.
    pub all: usize,
    /// Those that were answered.
    pub answered: usize,
}

/// How many figures were looked at, and how many of them some row carries elsewhere.
#[derive(Default)]
pub struct Figures {
    /// All figures.
    pub all: usize,
    /// Those that are carried elsewhere.
    pub moved: usize,
}

/// How many lists before splitting were compared with the original's own.
#[derive(Default)]
pub struct Lists {
    /// All of them, one for each entry.
    pub all: usize,
    /// Those that are another than the entry's split list.
    pub split: usize,
}

/// The engine that is tried, with the memory that it is lent.
pub struct Trials<'a> {
    oracle: &'a Oracle,
    engine: &'a mut dyn Probe,
    job: Fence,
    answer: Fence,
    /// What the original said of the cases as they came.
    pub tally: Tally,
    /// The calls, by what is particular about them.
    pub calls: BTreeMap<&'static str, Calls>,
    /// The figures of the answers: of jobs whose rows are not closed under
    /// composition, and of jobs whose rows are.
    pub figures: [Figures; 2],
    /// The lists of the answers.
    pub lists: Lists,
    /// The time that each side took.
    pub original_time: Duration,
    /// The time that the engine took.
    pub engine_time: Duration,
}

impl<'a> Trials<'a> {
    /// Trials of an engine beside the original.
    pub fn new(oracle: &'a Oracle, engine: &'a mut dyn Probe) -> Self {
        Self {
            oracle,
            engine,
            job: Fence::default(),
            answer: Fence::default(),
            tally: Tally::default(),
            calls: BTreeMap::new(),
            figures: Default::default(),
            lists: Lists::default(),
            original_time: Duration::ZERO,
            engine_time: Duration::ZERO,
        }
    }

    /// With new memory for each call, to be run under a memory checker.
    pub fn with_fresh_memory(self) -> Self {
        Self {
            job: Fence::bare(),
            answer: Fence::bare(),
            ..self
        }
    }

    /// The first difference of each call that has one.
    pub fn case(&mut self, case: &Case) -> Vec<String> {
        // Most cases find the workspace as the call before left it.
        if case.number % 8 == 7 {
            let byte = [0, 0xff, 0xa5][case.number / 8 % 3];
            self.engine.fill_workspace(byte);
        }
        let verdict = self.verdict(&case.job);
        let list = trials(case, &verdict);
        verdict.told(&mut self.tally, &list[0]);
        let mut lines: Vec<String> = list
            .iter()
            .filter_map(|trial| self.put(case, trial, &verdict))
            .collect();
        for trial in copies(case) {
            let verdict = self.verdict(&trial.job);
            lines.extend(self.put(case, &trial, &verdict));
        }
        lines
    }

    fn verdict(&mut self, job: &[u8]) -> Verdict {
        let start = Instant::now();
        let verdict = Verdict::of(self.oracle, job);
        self.original_time += start.elapsed();
        verdict
    }

    fn put(&mut self, case: &Case, trial: &Trial, verdict: &Verdict) -> Option<String> {
        let poison = POISONS[case.number % POISONS.len()];
        let job = self.job.take(trial.job.len(), case.number);
        job.copy_from_slice(&trial.job);
        let answer = self.answer.take(trial.room, case.number / 8);
        answer.fill(poison);
        let start = Instant::now();
        let code = self.engine.answer(job, trial.workspace, answer);
        self.engine_time += start.elapsed();
        let calls = self.calls.entry(trial.name).or_default();
        calls.all += 1;
        calls.answered += usize::from(code >= 0);
        let words = self
            .wrong(trial, code, verdict.expected(trial))
            .or_else(|| self.looked(trial, code))?;
        let Case { number, kind, .. } = case;
        Some(format!("case {number} ({kind}), {}: {words}", trial.name))
    }

    fn wrong(&mut self, trial: &Trial, code: i64, expected: (i64, &[u8])) -> Option<String> {
        if let Some(fault) = self.engine.fault() {
            return Some(format!("the engine {fault}"));
        }
        if !self.answer.intact() {
            return Some("the engine wrote beside its answer buffer".into());
        }
        if !self.job.intact() || *self.job.slice() != *trial.job {
            return Some("the engine wrote to the job or beside it".into());
        }
        let (right, bytes) = expected;
        let (front, behind) = self.answer.slice().split_at(bytes.len());
        if code == right && front == bytes && is_zero(behind) {
            return None;
        }
        let mut zeroed = bytes.to_vec();
        zeroed.resize(trial.room, 0);
        let side = |code, buffer| Outcome {
            number: 0,
            kind: String::new(),
            code,
            buffer,
        };
        let given = side(code, self.answer.slice().to_vec());
        let words = difference(&side(right, zeroed), &given)?;
        Some(words + aside(bytes, self.answer.slice()))
    }

    /// A look at an answer that is the original's.
    fn looked(&mut self, trial: &Trial, code: i64) -> Option<String> {
        if trial.name != EXACTLY_FULL || code < 0 {
            return None;
        }
        let (answer, _) = Answer::read(self.answer.slice()).ok()?;
        self.lists.all += answer.entries.len();
        let split = answer.entries.iter().filter(|e| e.before != e.list);
        self.lists.split += split.count();
        self.moved(trial, &answer)
    }

    /// A figure that a row carries elsewhere, though it should not.
    fn moved(&mut self, trial: &Trial, answer: &Answer) -> Option<String> {
        let carried = Carried::of(&Job::read(&trial.job)?, answer)?;
        let figures = &mut self.figures[usize::from(carried.closed)];
        figures.all += carried.elsewhere.len();
        figures.moved += carried.moved();
        carried.broken()
    }

    /// How many calls were made.
    pub fn call_count(&self) -> usize {
        self.calls.values().map(|calls| calls.all).sum()
    }
}

/// The answer with its lists before splitting left aside.
fn without_lists(mut answer: Answer) -> Answer {
    answer
        .entries
        .iter_mut()
        .for_each(|entry| entry.before.clear());
    answer
}

/// Whether all that differs are the lists before splitting.
fn aside(right: &[u8], given: &[u8]) -> &'static str {
    let read = |bytes| Answer::read(bytes).ok();
    let read = |bytes| read(bytes).map(|(answer, _)| without_lists(answer));
    match (read(right), read(given)) {
        (Some(a), Some(b)) if a == b => "; the same with the lists before splitting left aside",
        _ => "",
    }
}

/// In steps that the processor takes many bytes at once.
fn is_zero(bytes: &[u8]) -> bool {
    bytes
        .chunks(4096)
        .all(|chunk| chunk.iter().fold(0, |all, byte| all | byte) == 0)
}
