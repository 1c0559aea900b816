//! What is told about one run of the original, and the bounds it runs under.

use faceting_register::{bounds, Answer, Job, Stop};

/// The register's bounds; tests set smaller ones.
#[derive(Clone, Debug)]
pub struct Bounds {
    /// The most hyperplane orbits of a call.
    pub orbits: usize,
    /// The most possible facets of a call.
    pub facets: usize,
    /// The most entries of a call.
    pub entries: usize,
}

impl Default for Bounds {
    fn default() -> Self {
        Self {
            orbits: bounds::MOST_ORBITS,
            facets: bounds::MOST_FACETS,
            entries: bounds::MOST_ENTRIES,
        }
    }
}

/// A hyperplane orbit of a call of that rank: its first set, how many it has, and
/// what comes of it if its turn comes.
#[derive(Clone, Debug, PartialEq)]
pub struct Orbit {
    /// The rank of its call.
    pub rank: usize,
    /// Its first set.
    pub vertices: Vec<usize>,
    /// How many sets it has.
    pub count: usize,
    /// What came of it; nothing where its turn did not come.
    pub inner: Option<Inner>,
}

/// The rows of an orbit's inner call, or that its refit is refused.
#[derive(Clone, Debug, PartialEq)]
pub enum Inner {
    /// The refit was refused.
    Refused,
    /// The rows of the inner call.
    Rows(Vec<Vec<usize>>),
}

/// What was met on the way, over all calls of a run.
#[derive(Clone, Debug, Default, PartialEq)]
pub struct Events {
    /// The number of lists examined, also where the run was refused.
    pub examined: u32,
    /// The orbits of the outermost call, also where the run was refused later.
    pub orbits: Vec<Orbit>,
    /// The lists that the outermost call emitted, before splitting, as its entries
    /// stand; at rank 2 no list is emitted.
    pub before: Vec<Vec<(usize, usize)>>,
    /// A share of 0.
    pub zero_shares: bool,
    /// Two different shares of a facet in a ridge orbit.
    pub unequal_shares: bool,
    /// A line with more than two points.
    pub crowded_line: bool,
    /// A set with fewer points than its tuple.
    pub small_set: bool,
    /// The largest numbers reached in one call.
    pub most_orbits: usize,
    /// The most possible facets in one call.
    pub most_facets: usize,
    /// The most entries in one call.
    pub most_entries: usize,
    /// A refusal 14 with too few basis vectors, or with too many.
    pub short_refit: bool,
    /// A refusal 14 with too many basis vectors.
    pub long_refit: bool,
    /// A refusal 15 for the entries of a call, not for its facets.
    pub too_many_entries: bool,
}

/// A job's result in a buffer of any length, and what was met on the way.
pub struct Judgement {
    /// The answer, or why there is none.
    pub result: Result<Answer, Stop>,
    /// What was met on the way.
    pub events: Events,
    /// The job, if no refusal before the call stopped it.
    pub job: Option<Job>,
}

impl Judgement {
    /// The job's rank; 0 for a job that was stopped before.
    pub fn rank(&self) -> u8 {
        self.job.as_ref().map_or(0, |job| job.rank)
    }

    /// Whether the rows of the job, if it came so far, are not closed.
    pub fn rows_open(&self) -> bool {
        self.job.as_ref().is_some_and(|job| !job.rows_closed())
    }

    /// Whether there is an answer and this holds of it.
    pub fn answered(&self, holds: impl FnOnce(&Answer) -> bool) -> bool {
        self.result.as_ref().is_ok_and(holds)
    }
}
