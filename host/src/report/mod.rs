//! What people and programs read: pages, JSON, advice on refusals, and lists of
//! what an answer or a run holds. What is told of an answered set is put together
//! once, as a `Report`, and written in each form from there.

pub mod advice;
pub mod flat;
pub mod hash;
pub mod json;
pub mod label;
pub mod listing;
pub mod look;
pub mod margin;
pub mod noble;
pub mod notes;
pub mod orbits;
pub mod page;
pub mod parts;

use faceting_register::answer::Damage;
use faceting_register::{Answer, Job, Package, Refusal};

use crate::format::culprit::Culprit;
use crate::parts::Parts;
use crate::symmetry::Carried;
use label::{left_out, Count};
use look::{looks, Look};
use noble::Noble;
use notes::Notes;
use page::Subject;

/// The version of the command, which pages and JSON name.
pub const VERSION: &str = env!("CARGO_PKG_VERSION");

/// Where a result comes from.
#[derive(Clone, Debug, PartialEq, Eq)]
pub struct Source {
    /// The engine that answered.
    pub engine: &'static str,
    /// The hash of the job's bytes.
    pub hash: String,
}

impl Source {
    /// That engine, asked for the job of these bytes.
    pub fn of(engine: &'static str, job: &[u8]) -> Source {
        Source {
            engine,
            hash: hash::sha256(job),
        }
    }
}

/// Everything that is told of a refused set.
pub struct Rejection {
    /// Why it was refused.
    pub refusal: Refusal,
    /// The number or row that it was refused for.
    pub culprit: Option<Culprit>,
    /// Where it comes from.
    pub source: Source,
    /// The host's own look at the job, where it can be read.
    pub notes: Option<Notes>,
}

/// Everything that is told of an answered set.
pub struct Report {
    /// What it is about.
    pub subject: Subject,
    /// Where it comes from.
    pub source: Source,
    /// What was asked.
    pub job: Job,
    /// What was answered.
    pub answer: Answer,
    /// The length of the answer's bytes.
    pub length: usize,
    /// The host's own look at each entry.
    pub looks: Vec<Look>,
    /// What the host measured of the figures.
    pub parts: Parts,
    /// What the host saw of the promised symmetry, from rank 3 on.
    pub carried: Option<Carried>,
    /// The host's own look at the job.
    pub notes: Notes,
    /// The ascending numbers of the plain entries, where they were asked for.
    pub plain: Option<Vec<u32>>,
    /// What the label counts.
    pub count: Count,
    /// What each entry costs, in pence, where a tariff was given and the rank has prices.
    pub prices: Option<Vec<u64>>,
    /// What is told of the package that the job was answered with, if there was one.
    pub noble: Option<Noble>,
}

impl Report {
    /// What there is to tell of an answer's bytes, if they are one, and of the numbers
    /// of the job's plain entries, where they were asked for.
    pub fn of(
        subject: &Subject,
        source: Source,
        job: Job,
        answer: &[u8],
        plain: Option<Vec<u32>>,
    ) -> Result<Report, Damage> {
        let (read, length) = Answer::read(answer)?;
        let looks = looks(&read);
        Ok(Report {
            subject: subject.clone(),
            source,
            notes: Notes::of(&job),
            count: Count::of(&job, &read, &looks, plain.as_ref().map(Vec::len)),
            plain,
            carried: Carried::of(&job, &read),
            parts: Parts::of(&job, &read),
            job,
            answer: read,
            length,
            looks,
            prices: None,
            noble: None,
        })
    }

    /// The same of a job that was answered with this package.
    pub fn with_package(self, package: Package) -> Report {
        let noble = Noble::of(&self.job, &self.answer, package);
        Report {
            noble: Some(noble),
            ..self
        }
    }

    /// What an entry costs, in pence, or nothing.
    pub fn price(&self, e: usize) -> Option<u64> {
        self.prices
            .as_ref()
            .and_then(|prices| prices.get(e).copied())
    }

    /// The line that goes on the box.
    pub fn label(&self) -> String {
        let left_out = left_out(&self.job, self.count.cut);
        let noble = self.noble.as_ref().filter(|_| self.job.rank > 2);
        let words = noble.map(|_| noble::LABEL.to_string());
        let bracket: Vec<String> = words.into_iter().chain(left_out).collect();
        let bracket = (!bracket.is_empty()).then(|| bracket.join(", "));
        self.count.words(bracket)
    }
}
