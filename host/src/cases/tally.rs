//! How often each result and each rare event was reached in a run.

use std::collections::BTreeMap;
use std::fmt;

use faceting_register::bounds::{MOST_ENTRIES, MOST_FACETS, MOST_ORBITS, MOST_ROWS, POINTS};
use faceting_register::{Job, Refusal};

use crate::engines::judgement::Judgement;

/// The counts of a run.
#[derive(Default)]
pub struct Tally {
    cases: usize,
    results: BTreeMap<i64, usize>,
    events: BTreeMap<usize, usize>,
}

type Event = (&'static str, fn(&Judgement, i64) -> bool);

/// Rare events, in the order in which they are told.
const EVENTS: &[Event] = &[
    ("accepted at rank 2", |j, code| code >= 0 && j.rank() == 2),
    ("accepted at rank 3", |j, code| code >= 0 && j.rank() == 3),
    ("accepted at rank 4", |j, code| code >= 0 && j.rank() == 4),
    ("no orbit", |j, _| j.answered(|a| a.counts.is_empty())),
    ("no entry", |j, _| j.answered(|a| a.entries.is_empty())),
    ("rows not closed", |j, _| j.rows_open()),
    ("accepted, rows not closed", |j, code| {
        code >= 0 && j.rows_open()
    }),
    ("zero shares", |j, _| j.events.zero_shares),
    ("unequal shares", |j, _| j.events.unequal_shares),
    ("accepted, unequal shares", |j, code| {
        code >= 0 && j.events.unequal_shares
    }),
    ("equal entries", |j, _| {
        j.answered(|a| a.has_equal_entries())
    }),
    ("same facets in another order", |j, _| {
        j.answered(|a| a.has_reordered_entries())
    }),
    ("compounds", |j, _| j.answered(|a| !a.compounds.is_empty())),
    ("compound facets split", |j, _| {
        j.answered(|a| a.entries.iter().any(|e| e.before != e.list))
    }),
    ("crowded line", |j, _| j.events.crowded_line),
    ("set smaller than its tuple", |j, _| j.events.small_set),
    ("14 with too few vectors", |j, _| j.events.short_refit),
    ("14 with too many vectors", |j, _| j.events.long_refit),
    ("255 orbits in a call", |j, code| {
        code != -13 && j.events.most_orbits == MOST_ORBITS - 1
    }),
    ("256 orbits in a call", |j, code| {
        code != -13 && j.events.most_orbits == MOST_ORBITS
    }),
    ("256 orbits, accepted", |j, code| {
        code >= 0 && j.events.most_orbits == MOST_ORBITS
    }),
    ("1,023 facets in a call", |j, code| {
        code != -15 && j.events.most_facets == MOST_FACETS - 1
    }),
    ("1,024 facets in a call", |j, code| {
        code != -15 && j.events.most_facets == MOST_FACETS
    }),
    ("1,024 facets, accepted", |j, code| {
        code >= 0 && j.events.most_facets == MOST_FACETS
    }),
    ("15 for facets", |j, code| {
        code == -15 && !j.events.too_many_entries
    }),
    ("1,023 entries in a call", |j, code| {
        code != -15 && j.events.most_entries == MOST_ENTRIES - 1
    }),
    ("1,024 entries in a call", |j, code| {
        code != -15 && j.events.most_entries == MOST_ENTRIES
    }),
    ("1,024 entries, accepted", |j, _| {
        j.answered(|a| a.entries.len() == MOST_ENTRIES)
    }),
    ("1,024 entries without limit", |j, _| {
        limit(j).is_none() && j.answered(|a| a.entries.len() == MOST_ENTRIES)
    }),
    ("15 for entries", |j, code| {
        code == -15 && j.events.too_many_entries
    }),
    ("budget used up exactly", |j, _| {
        j.answered(|a| Some(a.examined) == budget(j))
    }),
    ("budget 0, accepted", |j, code| {
        code >= 0 && budget(j) == Some(0)
    }),
    ("stopped by the entry limit", |j, _| {
        j.answered(|a| limit(j).is_some_and(|m| a.entries.len() == (m as usize).max(1)))
    }),
    ("120 rows, accepted", |j, code| {
        code >= 0 && count(j, |job| job.rows.len()) == MOST_ROWS
    }),
    ("20 points, accepted", |j, code| {
        code >= 0 && count(j, |job| job.points.len()) == (*POINTS.end()).into()
    }),
];

fn limit(judged: &Judgement) -> Option<u32> {
    judged.job.as_ref().and_then(|job| job.limit)
}

fn budget(judged: &Judgement) -> Option<u32> {
    judged.job.as_ref().map(|job| job.budget)
}

fn count(judged: &Judgement, of: impl Fn(&Job) -> usize) -> usize {
    judged.job.as_ref().map_or(0, of)
}

impl Tally {
    /// Counts a case by its judgement and returned value.
    pub fn add(&mut self, judged: &Judgement, code: i64) {
        self.cases += 1;
        *self.results.entry(code.min(0)).or_default() += 1;
        for (index, (_, met)) in EVENTS.iter().enumerate() {
            *self.events.entry(index).or_default() += usize::from(met(judged, code));
        }
    }

    /// How often a result was reached: 0 for an answer, else the refusal number.
    pub fn result(&self, number: u8) -> usize {
        self.results.get(&-i64::from(number)).copied().unwrap_or(0)
    }

    /// Every event with how often it was met.
    pub fn events(&self) -> impl Iterator<Item = (&'static str, usize)> + '_ {
        let times = |index: usize| self.events.get(&index).copied().unwrap_or(0);
        let told = move |(index, event): (usize, &Event)| (event.0, times(index));
        EVENTS.iter().enumerate().map(told)
    }

    /// How often there was no result: the original panicked.
    pub fn others(&self) -> usize {
        let known = results().map(|number| self.result(number)).sum::<usize>();
        self.cases - known
    }
}

/// The numbers of all results of a job without a package: 0 for an answer, else the
/// refusal's.
fn results() -> impl Iterator<Item = u8> {
    let of_a_job = Refusal::all().filter(|refusal| *refusal != Refusal::Package);
    std::iter::once(0).chain(of_a_job.map(Refusal::number))
}

impl fmt::Display for Tally {
    fn fmt(&self, f: &mut fmt::Formatter<'_>) -> fmt::Result {
        writeln!(f, "{} cases", self.cases)?;
        for number in results() {
            let words = Refusal::from_code(-i64::from(number)).map_or("answered", Refusal::words);
            writeln!(f, "{:>8}  result {number:>2}: {words}", self.result(number))?;
        }
        if self.others() > 0 {
            writeln!(f, "{:>8}  the original panicked", self.others())?;
        }
        for (name, times) in self.events() {
            writeln!(f, "{times:>8}  {name}")?;
        }
        Ok(())
    }
}
