//! What comes of a vertex set, and how it is told.

use faceting_register::bounds::WORKSPACE;
use faceting_register::job::accept;
use faceting_register::plain::plain;
use faceting_register::request::ask;
use faceting_register::{noble, Engine, Job, Package, Refusal, Stop};
use facetings_host::format::culprit::Culprit;
use facetings_host::format::package;
use facetings_host::format::vertex_set::VertexSet;
use facetings_host::report::label::counted;
use facetings_host::report::notes::Notes;
use facetings_host::report::page::page;
use facetings_host::report::{advice, json, Rejection, Report, Source};

use crate::options::{Form, Options};

/// How it ended: the exit status.
#[derive(Clone, Copy, Default, PartialEq, Eq, PartialOrd, Ord)]
pub enum Status {
    #[default]
    Answered = 0,
    Refused = 1,
    Bad = 2,
    Absent = 3,
    Noted = 4,
}

/// What came of a set.
pub enum Outcome {
    Answered(Box<Report>, Vec<u8>),
    Refused(Box<Rejection>),
    Bad(String),
}

/// The engine's answer to a set, of no more bytes than there is room for.
pub fn outcome(engine: &mut dyn Engine, set: &VertexSet, options: &Options) -> Outcome {
    let job = set.job.as_ref();
    let result = job.ok().map(|job| ask(engine, job, options.room));
    outcome_from(engine, set, options, result)
}

/// The engine's answer to a set with a package.
pub fn noble_outcome(
    engine: &mut dyn Engine,
    set: &VertexSet,
    options: &Options,
    package: &[u8],
) -> Outcome {
    let job = match &set.job {
        Ok(job) => job,
        Err(words) => return Outcome::Bad(words.clone()),
    };
    let points = usize::from(faceting_register::job::point_count_of(job));
    let result = noble::ask_noble(engine, job, package, options.room);
    match (result, Package::read(points, package)) {
        (Ok(bytes), Some(package)) => {
            match answered(set, Source::of(engine.name(), job), job, bytes, None) {
                Outcome::Answered(report, bytes) => {
                    Outcome::Answered(Box::new(report.with_package(package)), bytes)
                }
                other => other,
            }
        }
        (Err(Stop::Refused(Refusal::Package)), _) => Outcome::Refused(Box::new(Rejection {
            refusal: Refusal::Package,
            culprit: package::fault(points, package).map(|place| Culprit {
                place,
                change: None,
            }),
            source: Source::of(engine.name(), job),
            notes: notes(job),
        })),
        (result, _) => outcome_from(engine, set, options, Some(result)),
    }
}

/// What came of a set whose job, if it has one, the engine gave this result.
pub fn outcome_from(
    engine: &mut dyn Engine,
    set: &VertexSet,
    options: &Options,
    result: Option<Result<Vec<u8>, Stop>>,
) -> Outcome {
    let job = match &set.job {
        Ok(job) => job,
        Err(words) => return Outcome::Bad(words.clone()),
    };
    let source = Source::of(engine.name(), job);
    match result {
        Some(Ok(bytes)) => match plain_entries(engine, job, options) {
            Ok(plain) => answered(set, source, job, bytes, plain),
            Err(words) => Outcome::Bad(words),
        },
        Some(Err(Stop::Refused(refusal))) => Outcome::Refused(Box::new(Rejection {
            refusal,
            culprit: set.culprit(refusal),
            source,
            notes: notes(job),
        })),
        Some(Err(Stop::Broken(words))) => Outcome::Bad(words),
        None => Outcome::Bad("no answer was given".into()),
    }
}

/// The numbers of the plain entries of a job that has an answer. Bytes by themselves
/// have no label, and nobody waits for them.
fn plain_entries(
    engine: &mut dyn Engine,
    job: &[u8],
    options: &Options,
) -> Result<Option<Vec<u32>>, String> {
    if options.form == Form::Raw {
        return Ok(None);
    }
    let numbers = plain(engine, job);
    numbers
        .map(Some)
        .map_err(|stop| format!("answered, but not its plain entries: {stop}"))
}

fn answered(
    set: &VertexSet,
    source: Source,
    job: &[u8],
    bytes: Vec<u8>,
    plain: Option<Vec<u32>>,
) -> Outcome {
    let read = Job::read(job).map(|job| Report::of(&set.subject, source, job, &bytes, plain));
    match read {
        Some(Ok(report)) if report.length == bytes.len() => {
            Outcome::Answered(Box::new(report), bytes)
        }
        _ => Outcome::Bad("the answer is not laid out as one".into()),
    }
}

impl Outcome {
    /// The exit status that it calls for; a note of weight counts where that is asked
    /// for.
    pub fn status(&self, strict: bool) -> Status {
        match self {
            Outcome::Answered(report, _) if strict && report.notes.weight() > 0 => Status::Noted,
            Outcome::Answered(..) => Status::Answered,
            Outcome::Refused(..) => Status::Refused,
            Outcome::Bad(_) => Status::Bad,
        }
    }

    /// The label with the number of notes that weigh, or why there is none.
    pub fn line(&self) -> String {
        match self {
            Outcome::Answered(report, _) => match report.notes.weight() {
                0 => report.label(),
                some => format!("{}; {}", report.label(), counted(some, "note", "notes")),
            },
            Outcome::Refused(rejection) => {
                advice::line(rejection.refusal, rejection.culprit.as_ref())
            }
            Outcome::Bad(words) => words.clone(),
        }
    }

    /// What there is to tell of a set that was answered.
    pub fn report(&self) -> Option<&Report> {
        match self {
            Outcome::Answered(report, _) => Some(report),
            _ => None,
        }
    }

    /// The same, to put more into it.
    pub fn report_mut(&mut self) -> Option<&mut Report> {
        match self {
            Outcome::Answered(report, _) => Some(report),
            _ => None,
        }
    }

    fn json(&self, set: &VertexSet) -> String {
        let name = &set.subject.name;
        let value = match self {
            Outcome::Answered(report, _) => json::answered(report),
            Outcome::Refused(rejection) => json::refused(name, rejection),
            Outcome::Bad(words) => json::bad(name, words),
        };
        format!("{value}\n")
    }

    /// The result in the form that was asked for; none where the set was not
    /// answered, unless in JSON.
    pub fn result(&self, form: Form, set: &VertexSet) -> Option<Vec<u8>> {
        match (form, self) {
            (Form::Json, _) => Some(self.json(set).into_bytes()),
            (Form::Page, Outcome::Answered(report, _)) => Some(page(report).into_bytes()),
            (Form::Raw, Outcome::Answered(_, bytes)) => Some(bytes.clone()),
            _ => None,
        }
    }
}

/// The notes on a job that passes refusals 1 to 12; others cannot be read at all.
fn notes(job: &[u8]) -> Option<Notes> {
    let job = accept(job, WORKSPACE).ok()?;
    Some(Notes::of(&job))
}
