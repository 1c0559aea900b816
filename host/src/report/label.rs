//! The line that goes on the box: how many figures, whether that is all of them, how
//! many of them are plain, and what else is to be known before they are counted; and
//! what a plain one promises.

use faceting_register::{Answer, Job};

use super::look::Look;

/// What is promised of plain figures: of those that are not, and nothing else [18.4].
pub const PROMISE: &str = "each figure that is not plain has all the parts of another that is \
listed, which is proved; a plain one may have them too";

/// The same where a limit may have cut the list.
pub const PROMISE_OF_SOME: &str = "each figure that is not plain has all the parts of another \
that is listed, which is proved; a plain one may have them too, and those of a figure that the \
limit left out";

/// What a label counts, of one answer or of several together.
#[derive(Clone, Copy, Debug, PartialEq, Eq)]
pub struct Count {
    /// Entries.
    pub figures: usize,
    /// Those that are plain, where that was asked for.
    pub plain: Option<usize>,
    /// Those that close in themselves.
    pub closing: usize,
    /// Those that are an earlier entry again.
    pub again: usize,
    /// Those that two other entries make up.
    pub compounds: usize,
    /// Whether an entry limit may have cut the list.
    pub cut: bool,
}

impl Default for Count {
    /// Of no answer at all: nothing, and none of it plain.
    fn default() -> Count {
        Count {
            figures: 0,
            plain: Some(0),
            closing: 0,
            again: 0,
            compounds: 0,
            cut: false,
        }
    }
}

impl Count {
    /// What there is to count in an answer, so many of whose entries are plain.
    pub fn of(job: &Job, answer: &Answer, looks: &[Look], plain: Option<usize>) -> Count {
        Count {
            figures: answer.entries.len(),
            plain,
            closing: looks.iter().filter(|look| look.closes()).count(),
            again: looks.iter().filter(|look| look.equals.is_some()).count(),
            compounds: answer.compounds.len(),
            cut: is_cut(job, answer),
        }
    }

    /// Both together.
    pub fn plus(self, other: Count) -> Count {
        Count {
            figures: self.figures + other.figures,
            plain: self.plain.zip(other.plain).map(|(a, b)| a + b),
            closing: self.closing + other.closing,
            again: self.again + other.again,
            compounds: self.compounds + other.compounds,
            cut: self.cut || other.cut,
        }
    }

    /// The count in words, behind it in brackets what the job left out.
    pub fn words(&self, left_out: Option<String>) -> String {
        self.both(left_out) + &self.particulars()
    }

    /// How many figures, and how many of them are plain.
    pub fn both(&self, left_out: Option<String>) -> String {
        let figures = counted(self.figures, "figure", "figures");
        let figures = match self.cut {
            true => format!("at least {figures}"),
            false => figures,
        };
        let left_out = left_out.map_or(String::new(), |words| format!(" ({words})"));
        let plain = match (self.figures, self.plain) {
            (0, _) | (_, None) => String::new(),
            (_, Some(0)) => ", none of them plain".into(),
            (_, Some(some)) => format!(", {some} of them plain"),
        };
        format!("{figures}{left_out}{plain}")
    }

    /// What is promised of the plain figures, where there is one that could be.
    pub fn promise(&self) -> Option<&'static str> {
        let asked = self.plain.is_some() && self.figures > 0;
        asked.then_some(match self.cut {
            true => PROMISE_OF_SOME,
            false => PROMISE,
        })
    }

    /// That figures do not close is told in place of which are compounds, which
    /// then matters less.
    fn particulars(&self) -> String {
        let mut parts = Vec::new();
        if self.closing < self.figures {
            parts.push(match self.closing {
                0 => "none of them closes in itself".into(),
                1 => "1 of them closes in itself".into(),
                some => format!("{some} of them close in themselves"),
            });
        }
        if self.again > 0 {
            parts.push(format!("{} of them different", self.figures - self.again));
        }
        match (parts.is_empty(), self.compounds) {
            (false, _) | (_, 0) => {}
            (_, 1) => parts.push("1 of them a compound".into()),
            (_, more) => parts.push(format!("{more} of them compounds")),
        }
        parts.iter().map(|part| format!(", {part}")).collect()
    }
}

/// Whether an entry limit may have cut the list of this call, or the possible facets
/// of an orbit, which are the entries of a call one rank lower. A call of rank 2 has
/// one entry whatever the limit is.
fn is_cut(job: &Job, answer: &Answer) -> bool {
    let Some(limit) = job.limit else {
        return false;
    };
    let reached = |entries: usize| entries >= (limit as usize).max(1);
    let own = job.rank > 2 && reached(answer.entries.len());
    let inner = job.rank > 3 && answer.facets.iter().any(|orbit| reached(orbit.len()));
    own || inner
}

/// What the job's limits left out: of the entries, and of the edges.
pub fn left_out(job: &Job, cut: bool) -> Option<String> {
    let entries = job.limit.map(|limit| match cut {
        true => format!("entry limit {limit}"),
        false => format!("entry limit {limit} not reached"),
    });
    let edges = match (job.min, job.max) {
        (None, None) => None,
        (Some(min), None) => Some(format!("edges of length {min} or more")),
        (None, Some(max)) => Some(format!("edges of length {max} or less")),
        (Some(min), Some(max)) => Some(format!("edges of length {min} to {max}")),
    };
    let parts: Vec<String> = entries.into_iter().chain(edges).collect();
    (!parts.is_empty()).then(|| parts.join(", "))
}

/// So many of a thing, in words.
pub fn counted(count: usize, one: &str, many: &str) -> String {
    match count {
        0 => format!("no {many}"),
        1 => format!("1 {one}"),
        more => format!("{more} {many}"),
    }
}
