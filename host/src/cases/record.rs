//! A list of the original's results for a program that replays them from standard
//! input. All numbers are u32, little-endian:
//!
//!   count           records in the list; then for each
//!   job length      and that many bytes: the job
//!   workspace       length of the workspace
//!   room            length of the answer buffer
//!   refusal         the refusal number, 0 for an answer
//!   length          of the answer, 0 for a refusal
//!   hash            of the whole answer buffer at exit
//!
//! The hash begins at 0; each byte takes it to (hash * 16777619 + byte + 1) modulo
//! 4294967291, the largest prime below 2^32: no step passes 2^57, so that it can be
//! computed without sums that wrap.

use std::collections::BTreeMap;

use faceting_register::bounds::{SOCIETY_RULE, WORKSPACE};
use faceting_register::request::USUAL_ROOM;
use faceting_register::{Job, Refusal};

use crate::cases::generator::{self, KINDS};
use crate::cases::known_jobs::KNOWN_JOBS;
use crate::cases::run::run;
use crate::cases::tally::Tally;
use crate::cases::{Case, Outcome, Room};
use crate::engines::oracle::Oracle;

/// A list holds at least so many of each kind and of each refusal, and cases that
/// meet each rare event, as far as the tried cases have them.
const OF_A_KIND: usize = 14;
const OF_A_REFUSAL: usize = 10;
const OF_AN_EVENT: usize = 3;

/// No record needs more, so that a program can replay the list in fixed arrays.
pub const LONGEST_JOB: usize = 4_096;
/// The longest workspace of a record: one byte more than is ever asked for.
pub const LARGEST_WORKSPACE: usize = WORKSPACE + 1;
/// The longest answer buffer of a record.
pub const LARGEST_ROOM: usize = USUAL_ROOM;

/// The hash that the records have of a buffer.
pub fn hash(bytes: &[u8]) -> u32 {
    let step = |hash: u64, byte: &u8| (hash * 16_777_619 + u64::from(*byte) + 1) % 4_294_967_291;
    bytes.iter().fold(0, step) as u32
}

/// The records in one piece of bytes, and how many there are of each sort.
#[derive(Default)]
pub struct List {
    records: Vec<u8>,
    count: u32,
    /// How many records there are of each sort.
    pub sorts: BTreeMap<String, usize>,
}

impl List {
    /// The list as the program reads it.
    pub fn bytes(&self) -> Vec<u8> {
        [&self.count.to_le_bytes(), &self.records[..]].concat()
    }

    /// How many records there are.
    pub fn count(&self) -> usize {
        self.count as usize
    }

    fn push(&mut self, case: &Case, outcome: &Outcome) {
        let refusal = Refusal::from_code(outcome.code).map_or(0, Refusal::number);
        let word = |number: usize| (number as u32).to_le_bytes();
        self.records.extend(word(case.job.len()));
        self.records.extend(&case.job);
        let length = usize::try_from(outcome.code).unwrap_or(0);
        for number in [case.workspace, outcome.buffer.len(), refusal.into(), length] {
            self.records.extend(word(number));
        }
        self.records.extend(hash(&outcome.buffer).to_le_bytes());
        self.count += 1;
    }

    fn had(&self, sort: &str) -> usize {
        self.sorts.get(sort).copied().unwrap_or(0)
    }

    /// Whether some sort of the case still lacks cases; then it counts for all.
    fn wants(&mut self, sorts: &[(String, usize)]) -> bool {
        let lacks =
            |(sort, least): &(String, usize)| self.sorts.get(sort).copied().unwrap_or(0) < *least;
        let wanted = sorts.iter().any(lacks);
        if wanted {
            for (sort, _) in sorts {
                *self.sorts.entry(sort.clone()).or_default() += 1;
            }
        }
        wanted
    }
}

/// The known jobs, then those of the seed's first `tries` cases that are wanted.
pub fn record(oracle: &mut Oracle, seed: u64, tries: usize) -> Result<List, String> {
    let mut list = List::default();
    for (number, known) in KNOWN_JOBS.iter().enumerate() {
        let case = Case {
            number,
            seed,
            kind: "known".into(),
            workspace: LARGEST_WORKSPACE - 1,
            room: Room::Fit(4),
            job: known.job()?,
        };
        consider(oracle, &mut list, case, KNOWN_JOBS.len());
    }
    for number in 0..tries {
        // Each kind in turn until there are enough of it, then any.
        let kind = &KINDS[number % KINDS.len()];
        let had = list.had(&kind_sort(kind.name));
        let kind = (had < OF_A_KIND).then_some(kind);
        let case = generator::case(seed, number, kind);
        consider(oracle, &mut list, narrowed(case), OF_A_KIND);
    }
    Ok(list)
}

/// Most answers in a buffer that is hardly longer, so that little is hashed.
fn narrowed(mut case: Case) -> Case {
    if case.room == Room::Bytes(USUAL_ROOM) {
        case.room = Room::Fit((case.number % 9) as isize);
    }
    case
}

fn consider(oracle: &mut Oracle, list: &mut List, case: Case, of_a_kind: usize) {
    if case.job.len() > LONGEST_JOB || case.workspace > LARGEST_WORKSPACE {
        return;
    }
    // The original has no rule 2.
    if Job::read(&case.job).is_some_and(|job| job.rule == SOCIETY_RULE) {
        return;
    }
    let outcome = run(oracle, &case);
    if outcome.buffer.len() > LARGEST_ROOM {
        return;
    }
    let sorts = sorts(oracle, &case, outcome.code, of_a_kind);
    if list.wants(&sorts) {
        list.push(&case, &outcome);
    }
}

fn kind_sort(name: &str) -> String {
    format!("kind {name}")
}

/// What a case stands for, each with how many of it are wanted.
fn sorts(oracle: &Oracle, case: &Case, code: i64, of_a_kind: usize) -> Vec<(String, usize)> {
    let mut sorts = vec![(kind_sort(&case.kind), of_a_kind)];
    if let Some(refusal) = Refusal::from_code(code) {
        sorts.push((format!("refusal {:>2}", refusal.number()), OF_A_REFUSAL));
    }
    let mut tally = Tally::default();
    if let Some(judged) = &oracle.last {
        tally.add(judged, code);
    }
    let met = tally.events().filter(|event| event.1 > 0);
    sorts.extend(met.map(|event| (event.0.to_string(), OF_AN_EVENT)));
    sorts
}
