//! Small cases with their results, spread over ranks, rows, shares and refusals,
//! for those who evaluate definitions on them.

use std::collections::BTreeMap;
use std::fmt;

use faceting_register::bounds::RULE;
use faceting_register::job::point_count_of;
use faceting_register::{Answer, Refusal};

use crate::cases::generator::{self, Kind};
use crate::cases::run::run;
use crate::cases::{Case, Outcome, Room};
use crate::engines::judgement::Judgement;
use crate::engines::oracle::Oracle;
use crate::format::hex;

/// What counts as small.
const MOST_POINTS: u8 = 6;
const MOST_JOB_BYTES: usize = 800;
const MOST_ANSWER_BYTES: usize = 12_000;

const MOST_EXAMINED: u32 = 400;

/// Each class has its share of the picked cases, so that rare ones are not lost
/// among the many.
#[derive(Clone, Copy, PartialEq, Eq, PartialOrd, Ord)]
enum Class {
    Refused(u8),
    Shares,
    Accepted { rank: u8, closed: bool },
}

/// A small case with its result.
pub struct Sample {
    /// The case.
    pub case: Case,
    /// What the original gave back.
    pub outcome: Outcome,
    /// What it stands for.
    pub tags: Vec<String>,
}

impl Sample {
    /// Its tags, as one line.
    pub fn tag_line(&self) -> String {
        self.tags.join(", ")
    }
}

/// How often each tag stands at the cases, but for those that count lists.
pub fn tag_counts(cases: &[Sample]) -> BTreeMap<&str, usize> {
    let mut counts = BTreeMap::new();
    let tags = cases.iter().flat_map(|picked| &picked.tags);
    for tag in tags.filter(|tag| !tag.starts_with("examined-")) {
        *counts.entry(tag.as_str()).or_default() += 1;
    }
    counts
}

impl fmt::Display for Sample {
    fn fmt(&self, f: &mut fmt::Formatter<'_>) -> fmt::Result {
        let digits = |bytes: &[u8]| match bytes {
            [] => "-".into(),
            _ => hex::write(bytes),
        };
        let job = digits(&self.case.job);
        let (workspace, room) = (self.case.workspace, self.outcome.buffer.len());
        let (code, buffer) = (self.outcome.code, digits(&self.outcome.buffer));
        write!(
            f,
            "{job} {workspace} {room} {code} {buffer} {}",
            self.tags.join(",")
        )
    }
}

/// That many small cases, or fewer if the seed's first `tries` cases, all of a kind
/// where one is named, hold fewer.
pub fn pick(
    oracle: &mut Oracle,
    seed: u64,
    count: usize,
    tries: usize,
    kind: Option<&'static Kind>,
) -> Vec<Sample> {
    let mut wanted = shares(count);
    let mut picked = Vec::new();
    for number in 0..tries {
        if picked.len() == count {
            break;
        }
        let case = generator::case(seed, number, kind);
        let Some((one, class)) = small(oracle, case) else {
            continue;
        };
        let left = wanted.get_mut(&class).filter(|left| **left > 0);
        if let Some(left) = left {
            *left -= 1;
            picked.push(one);
        }
    }
    picked
}

/// How many of the whole each class gets; rank 4 with closed rows gets the rest.
fn shares(count: usize) -> BTreeMap<Class, usize> {
    let accepted = |rank, closed| Class::Accepted { rank, closed };
    let fitting = (1..=17).filter(|number| ![13, 15].contains(number));
    let mut shares: BTreeMap<Class, usize> = fitting
        .map(|number| (Class::Refused(number), count.div_ceil(75)))
        .collect();
    shares.insert(Class::Shares, count.div_ceil(8));
    for closed in [false, true] {
        shares.insert(accepted(2, closed), count.div_ceil(50));
        shares.insert(accepted(3, closed), count.div_ceil(8));
    }
    shares.insert(accepted(4, false), count.div_ceil(6));
    let rest = count.saturating_sub(shares.values().sum());
    shares.insert(accepted(4, true), rest);
    shares
}

/// The case with a narrow buffer, its result and its class, if it is small.
fn small(oracle: &mut Oracle, mut case: Case) -> Option<(Sample, Class)> {
    let points = point_count_of(&case.job);
    if points > MOST_POINTS || case.job.len() > MOST_JOB_BYTES {
        return None;
    }
    let wide = run(oracle, &case);
    if wide.code >= 0 {
        case.room = Room::Fit((case.number % 9) as isize);
    } else if wide.code != Refusal::Room.code() {
        case.room = Room::Bytes(case.number % 9);
    }
    let outcome = run(oracle, &case);
    let judged = oracle.last.as_ref()?;
    let quick = judged.events.examined <= MOST_EXAMINED;
    if !quick || outcome.buffer.len() > MOST_ANSWER_BYTES {
        return None;
    }
    let class = class(judged, outcome.code);
    let tags = tags(judged, outcome.code);
    Some((
        Sample {
            case,
            outcome,
            tags,
        },
        class,
    ))
}

fn class(judged: &Judgement, code: i64) -> Class {
    if let Some(refusal) = Refusal::from_code(code) {
        return Class::Refused(refusal.number());
    }
    if judged.events.unequal_shares || judged.answered(Answer::has_equal_entries) {
        return Class::Shares;
    }
    Class::Accepted {
        rank: judged.rank(),
        closed: !judged.rows_open(),
    }
}

fn tags(judged: &Judgement, code: i64) -> Vec<String> {
    let mut tags: Vec<String> = Vec::new();
    let rank = judged.job.as_ref().map(|job| format!("rank-{}", job.rank));
    tags.extend(rank);
    let rule = judged.job.as_ref().map(|job| job.rule);
    tags.extend(
        rule.filter(|&rule| rule != RULE)
            .map(|rule| format!("rule-{rule}")),
    );
    let events = &judged.events;
    let flags = [
        (judged.rows_open(), "rows-not-closed"),
        (events.unequal_shares, "unequal-shares"),
        (events.zero_shares, "zero-shares"),
        (events.crowded_line, "crowded-line"),
        (judged.answered(Answer::has_equal_entries), "equal-entries"),
    ];
    tags.extend(flags.iter().filter(|flag| flag.0).map(|flag| flag.1.into()));
    let result = Refusal::from_code(code);
    tags.push(result.map_or("accepted".into(), |r| format!("refusal-{}", r.number())));
    tags.push(format!("examined-{}", events.examined));
    tags
}
