//! From files to results: one set by itself, or many with a line for each.

use std::error::Error;
use std::path::{Path, PathBuf};

use faceting_register::batch::ask_all;
use faceting_register::{Engine, Register};
use facetings_host::engines::oracle::Oracle;
use facetings_host::format::vertex_set::VertexSet;
use facetings_host::report::label::{counted, Count};

use crate::gathered::{is_catalogue, Catalogues, Gathered};
use crate::inputs::{self, Named};
use crate::options::{Form, Options};
use crate::outcome::{outcome, outcome_from, Outcome, Status};
use crate::places::{make_folder, places, spared};
use crate::progress::Progress;
use crate::quotes::Quotes;
use crate::{complain, crew, output, resume, works};

/// Answers what the options name, and says how that ended.
pub fn run(options: &Options) -> Status {
    let mut engine = match open(options.original) {
        Ok(engine) => engine,
        Err(why) => return complain(&why.to_string(), Status::Absent),
    };
    let done = answer(options, engine.as_mut());
    done.unwrap_or_else(|words| complain(&words, Status::Bad))
}

/// A single file with a single set by itself, anything else as several sets.
fn answer(options: &Options, engine: &mut dyn Engine) -> Result<Status, String> {
    let catalogues = Catalogues::read(options)?;
    options.price.as_deref().map(Quotes::open).transpose()?;
    let is_set = |file: &&PathBuf| options.form != Form::Csv || !is_catalogue(file);
    let named: Vec<PathBuf> = options.inputs.iter().filter(is_set).cloned().collect();
    let inputs = inputs::inputs(&named);
    let sets: Vec<Named> = inputs.iter().flat_map(inputs::read).collect();
    let single = inputs.len() == 1 && inputs[0].file == options.inputs[0];
    let single = single && !options.form.needs_folder() && options.form != Form::Csv;
    if let ([named], true) = (&sets[..], single) {
        spared(&inputs, options.place.as_slice())?;
        return alone(options, engine, &named.set);
    }
    let places = places(options, &sets)?;
    let files = match &places {
        Some(places) => places,
        None => options.place.as_slice(),
    };
    spared(&inputs, files)?;
    many(options, &sets, places, catalogues)
}

/// What answers: the proved library, or the original in its place.
pub fn open(original: bool) -> Result<Box<dyn Engine>, Box<dyn Error>> {
    if original {
        return Ok(Box::new(Oracle::open()?));
    }
    Ok(Box::new(Register::open()?))
}

/// One set: the result, and a line on standard error where there is no answer.
fn alone(options: &Options, engine: &mut dyn Engine, set: &VertexSet) -> Result<Status, String> {
    let place = options.place.as_deref();
    if place.is_some_and(|place| resume::is_there(options, place, engine.name(), set)) {
        return Ok(Status::Answered);
    }
    deliver(options, set, outcome(engine, set, options))
}

/// What came of one set, put where it belongs.
pub fn deliver(options: &Options, set: &VertexSet, found: Outcome) -> Result<Status, String> {
    if let Some(bytes) = found.result(options.form, set) {
        match &options.place {
            Some(place) => output::save(place, &bytes)?,
            None => output::print(&bytes)?,
        }
    }
    let status = found.status(options.strict);
    Ok(match status {
        Status::Answered => status,
        _ => complain(&format!("{}: {}", set.subject.name, found.line()), status),
    })
}

/// What came of one of several sets, as far as it is told.
struct Done {
    status: Status,
    line: String,
    count: Option<Count>,
    kept: bool,
    printed: Option<Vec<u8>>,
    gathered: Gathered,
}

/// Several sets, some at a time: a line for each, and one for all of them.
fn many(
    options: &Options,
    sets: &[Named],
    places: Option<Vec<PathBuf>>,
    catalogues: Catalogues,
) -> Result<Status, String> {
    if let Some(folder) = options.place.as_ref().filter(|_| places.is_some()) {
        make_folder(folder)?;
    }
    let place = |i: usize| places.as_ref().map(|places| places[i].as_path());
    let calls: Vec<&[Named]> = sets.chunks(TOGETHER).collect();
    let work = |tools: &mut Option<Tools>, call: usize| {
        let place = |i| place(call * TOGETHER + i);
        some(options, tools.as_mut(), place, calls[call])
    };
    let (mut sums, mut gathered) = (Sums::default(), Gathered::default());
    let mut progress = Progress::of(sets.len(), options.quiet);
    let tools = || Tools::open(options).ok();
    crew::each(options.jobs, calls.len(), tools, work, |call, done| {
        for (i, done) in done.into_iter().enumerate() {
            sums.add(&done);
            told(options, call * TOGETHER + i, sets, &done)?;
            progress.step();
            gathered.extend(done.gathered);
        }
        Ok(())
    })?;
    gathered.finish(options, catalogues)?;
    if !options.quiet && !sets.is_empty() {
        tell(options, &sums.line())?;
    }
    Ok(sums.worst)
}

/// What a worker has: what answers, and what quotes where a tariff was given.
struct Tools {
    engine: Box<dyn Engine>,
    quotes: Option<Quotes>,
}

impl Tools {
    fn open(options: &Options) -> Result<Tools, Box<dyn Error>> {
        Ok(Tools {
            engine: open(options.original)?,
            quotes: options.price.as_deref().map(Quotes::open).transpose()?,
        })
    }
}

/// How many sets are answered in one call, so that lines come while others wait.
const TOGETHER: usize = 16;

/// Some of several sets: those that are there are passed over, the others answered
/// together and stored.
fn some<'a>(
    options: &Options,
    tools: Option<&mut Tools>,
    place: impl Fn(usize) -> Option<&'a Path>,
    sets: &[Named],
) -> Vec<Done> {
    let Some(Tools { engine, quotes }) = tools else {
        let bad = |_: &Named| Outcome::Bad("nothing is there to answer it".into());
        return sets.iter().map(|set| Done::of(options, bad(set))).collect();
    };
    let name = engine.name();
    let there = |(i, Named { set, .. }): (usize, &Named)| {
        place(i).is_some_and(|place| resume::is_there(options, place, name, set))
    };
    let there: Vec<bool> = sets.iter().enumerate().map(there).collect();
    let due = sets.iter().zip(&there).filter(|(_, there)| !**there);
    let jobs = due.filter_map(|(named, _)| named.set.job.as_ref().ok());
    let jobs: Vec<&[u8]> = jobs.map(Vec::as_slice).collect();
    let mut results = ask_all(engine.as_mut(), &jobs, options.room).into_iter();
    let done = |(i, Named { set, .. }): (usize, &Named)| match there[i] {
        true => Done::kept(),
        false => {
            let result = set.job.is_ok().then(|| results.next()).flatten();
            let mut found = outcome_from(engine.as_mut(), set, options, result);
            if let Some(quotes) = quotes {
                quotes.add(set, &mut found);
            }
            one(options, place(i), set, found)
        }
    };
    sets.iter().enumerate().map(done).collect()
}

/// One of several sets, stored.
fn one(options: &Options, place: Option<&Path>, set: &VertexSet, found: Outcome) -> Done {
    let (found, printed) = stored(options, place, set, found);
    let gathered = Gathered::of(options, place, &set.subject.name, &found);
    Done {
        printed,
        gathered,
        ..Done::of(options, found)
    }
}

impl Done {
    fn of(options: &Options, found: Outcome) -> Done {
        Done {
            status: found.status(options.strict),
            line: found.line(),
            count: found.report().map(|report| report.count),
            kept: false,
            printed: None,
            gathered: Gathered::default(),
        }
    }

    fn kept() -> Done {
        Done {
            status: Status::Answered,
            line: "as before".into(),
            count: None,
            kept: true,
            printed: None,
            gathered: Gathered::default(),
        }
    }
}

/// The line of a set, and its result where that goes to standard output.
fn told(options: &Options, i: usize, sets: &[Named], done: &Done) -> Result<(), String> {
    if let Some(bytes) = &done.printed {
        output::print(bytes)?;
    }
    let (all, number) = (sets.len(), i + 1);
    let width = all.to_string().len();
    let (name, line) = (&sets[i].set.subject.name, &done.line);
    match (options.quiet, done.status) {
        (true, Status::Answered) => {}
        (true, _) => output::tell(&format!("register: {name}: {line}\n")),
        (false, _) => tell(
            options,
            &format!("[{number:>width$}/{all}] {name}: {line}\n"),
        )?,
    }
    Ok(())
}

/// What came of a set after its result was put where it belongs, and what is to be
/// printed of it: without a folder only JSON is, and only the labels are told otherwise.
fn stored(
    options: &Options,
    place: Option<&Path>,
    set: &VertexSet,
    found: Outcome,
) -> (Outcome, Option<Vec<u8>>) {
    let form = options.form;
    let written = match (found.result(form, set), place) {
        (_, Some(place)) if form.needs_folder() => works::store(options, place, found.report()),
        (Some(bytes), Some(place)) => put(place, &bytes),
        (None, Some(place)) => output::remove(place),
        (Some(bytes), None) if form == Form::Json => return (found, Some(bytes)),
        _ => Ok(()),
    };
    match written {
        Ok(()) => (found, None),
        Err(words) => (Outcome::Bad(words), None),
    }
}

/// Sets of a folder below lie in one as well.
fn put(place: &Path, bytes: &[u8]) -> Result<(), String> {
    place.parent().map_or(Ok(()), make_folder)?;
    output::save(place, bytes)
}

/// Progress goes to standard output, unless the results themselves do.
fn tell(options: &Options, line: &str) -> Result<(), String> {
    let results = matches!(options.form, Form::Json | Form::Csv) && options.place.is_none();
    if results || options.against.is_some() {
        output::tell(line);
        return Ok(());
    }
    output::print(line.as_bytes())
}

#[derive(Default)]
struct Sums {
    answered: usize,
    refused: usize,
    bad: usize,
    kept: usize,
    count: Count,
    worst: Status,
}

impl Sums {
    fn add(&mut self, done: &Done) {
        self.worst = self.worst.max(done.status);
        let sum = match (done.kept, done.count, done.status) {
            (true, ..) => &mut self.kept,
            (_, Some(_), _) => &mut self.answered,
            (_, None, Status::Refused) => &mut self.refused,
            _ => &mut self.bad,
        };
        *sum += 1;
        self.count = done
            .count
            .map_or(self.count, |count| self.count.plus(count));
    }

    fn line(&self) -> String {
        let (answered, refused, bad) = (self.answered, self.refused, self.bad);
        let sets = counted(answered + refused + bad + self.kept, "set", "sets");
        let figures = self.count.words(None);
        let kept = match self.kept {
            0 => "".into(),
            kept => format!(", {kept} as before"),
        };
        format!("{sets}: {answered} answered, {refused} refused, {bad} bad{kept}; {figures}\n")
    }
}
