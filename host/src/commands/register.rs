//! The exported function beside the Rust.

use std::time::Instant;

use faceting_register::bounds::workspace_length;
use faceting_register::request::USUAL_ROOM;
use facetings_host::cases::generator::{case, case_within, kind_named, Kind};
use facetings_host::cases::known_jobs::KNOWN_JOBS;
use facetings_host::cases::record::record;
use facetings_host::cases::{Case, Room};
use facetings_host::compare::trials::{Figures, Lists, Trials};
use facetings_host::engines::guard::Guard;

use super::streams::chosen_kind;
use super::{absent, open_original, print, write_to, Command};
use crate::arguments::Arguments;
use crate::{Failure, DIFFERENT};

/// `compare-register`.
pub const COMPARE_REGISTER: Command = Command {
    name: "compare-register",
    about: "Compares the register with the Rust on generated cases.",
    usage: "[--seed S] [--count N] [--first I] [--kind K] [--stop D] [--tolerance T] [--memory M] [--library FILE]",
    details: || {
        "\
Puts the known jobs and N generated cases (default: 10000; as generate makes
them, every eighth of the kind brink, one of 64 of the kind tolerance and one of the
kind rule) to the Rust once each, and to the register in several calls: as
generated, with the workspace of the rank's length and one byte less, with the
answer buffer exactly full and one byte short, with the job one byte shorter and
longer, and as a copy with one altered byte. Buffers are poisoned, the workspace is
as the call before left it, and marked bytes around all three slices are looked at.
Where a job's rows are closed under composition, every row has to carry every figure
of its answer to itself; where they are not, it is counted how many it does not.
The lists before splitting are held to those that the Rust has when it begins to split
them; where nothing else differs, the difference says so.
Prints the first difference of each call, until D cases have one (default: 10), how
often each result and rare event was reached, and the rate. Exit status 1 if any
call differs. The register is linked where './library register' has left it
before the build; --library takes the function from a shared library instead.
With --tolerance all generated cases are of version 2 and name T: points and lengths
around T, at least, above and below. The Rust runs with the job's tolerance in the six
places of its constant. Jobs under rule 2 run with the Rust's crowded lines passed over.
With --memory fresh each slice is new memory of exactly its length and the workspace
was never written, so that a memory checker such as valgrind sees every access beside
them, and every choice that hangs on what the workspace held.
"
        .into()
    },
    options: &[
        "--seed",
        "--count",
        "--first",
        "--kind",
        "--stop",
        "--tolerance",
        "--memory",
        "--library",
    ],
    run: compare_register,
};

/// The register, linked or loaded, or the failure of a command that needs it.
pub fn open_register(arguments: &Arguments) -> Result<Guard, Failure> {
    match arguments.text("--library") {
        Some(library) => Ok(Guard::load(library)?),
        None => Guard::open().map_err(absent),
    }
}

/// Every eighth case has a distance at the tolerance: hardly any drawn case shows
/// in which order products are added. Some name another tolerance, some a rule.
fn at_the_brink(number: usize) -> Option<&'static Kind> {
    match number % 64 {
        3 => kind_named("tolerance"),
        11 => kind_named("rule"),
        number if number % 8 == 5 => kind_named("brink"),
        _ => None,
    }
}

fn fresh_memory(arguments: &Arguments) -> Result<bool, Failure> {
    match arguments.text("--memory") {
        None | Some("kept") => Ok(false),
        Some("fresh") => Ok(true),
        Some(other) => Err(format!("'--memory' takes kept or fresh, not '{other}'").into()),
    }
}

/// The known jobs as cases, with room for every answer.
fn known_cases() -> Result<Vec<Case>, Failure> {
    let case = |(number, known): (usize, &facetings_host::cases::known_jobs::KnownJob)| {
        Ok(Case {
            number,
            seed: number as u64,
            kind: known.name.into(),
            workspace: workspace_length(4),
            room: Room::Bytes(USUAL_ROOM),
            job: known.job()?,
        })
    };
    KNOWN_JOBS.iter().enumerate().map(case).collect()
}

fn compare_register(arguments: Arguments) -> Result<(), Failure> {
    arguments.plain([])?;
    let seed = arguments.number("--seed")?.unwrap_or(1);
    let count: usize = arguments.number("--count")?.unwrap_or(10_000);
    let first: usize = arguments.number("--first")?.unwrap_or(0);
    let stop: usize = arguments.number("--stop")?.unwrap_or(10);
    let kind = chosen_kind(&arguments)?;
    let fresh = fresh_memory(&arguments)?;
    let mut register = open_register(&arguments)?;
    if fresh {
        register = register.with_fresh_memory();
    }
    let oracle = open_original()?;
    let mut trials = Trials::new(&oracle, &mut register);
    if fresh {
        trials = trials.with_fresh_memory();
    }
    let start = Instant::now();
    let numbers = first..first.saturating_add(count);
    let tolerance: Option<f64> = arguments.number("--tolerance")?;
    let generated = numbers.map(|number| match tolerance {
        Some(tolerance) => case_within(seed, number, tolerance),
        None => case(seed, number, kind.or(at_the_brink(number))),
    });
    let all = known_cases()?.into_iter().chain(generated);
    let (cases, differing) = tried(&mut trials, all, stop.max(1))?;
    print(&told(&trials, cases, start.elapsed().as_secs_f64()))?;
    match differing {
        0 => print("no difference\n"),
        _ => Err(Failure {
            status: DIFFERENT,
            words: format!("{differing} of {cases} cases differ"),
        }),
    }
}

/// Tries cases until so many differ; how many were tried, and how many differ.
fn tried(
    trials: &mut Trials,
    all: impl Iterator<Item = Case>,
    most: usize,
) -> Result<(usize, usize), Failure> {
    let (mut cases, mut differing) = (0, 0);
    for case in all {
        let lines = trials.case(&case);
        cases += 1;
        differing += usize::from(!lines.is_empty());
        for line in &lines {
            print(&format!("{line}\n"))?;
        }
        if differing >= most {
            break;
        }
    }
    Ok((cases, differing))
}

/// The tables, and what the run took.
fn told(trials: &Trials, cases: usize, seconds: f64) -> String {
    let mut text = trials.tally.to_string();
    for (name, calls) in &trials.calls {
        text += &format!(
            "{:>8}  calls: {name}, {} answered\n",
            calls.all, calls.answered
        );
    }
    for (rows, figures) in ["rows not closed", "rows closed"]
        .iter()
        .zip(&trials.figures)
    {
        let Figures { all, moved } = figures;
        text += &format!("{all:>8}  figures, {rows}: {moved} carried elsewhere by some row\n");
    }
    let Lists { all, split } = &trials.lists;
    text += &format!(
        "{all:>8}  lists before splitting beside the Rust's own: {split} with a compound facet\n"
    );
    text + &format!(
        "{cases} cases, {} calls in {seconds:.1} s, {:.0} cases a second; the Rust took {:.2} s, the register {:.2} s\n",
        trials.call_count(),
        cases as f64 / seconds,
        trials.original_time.as_secs_f64(),
        trials.engine_time.as_secs_f64()
    )
}

/// `record`.
pub const RECORD: Command = Command {
    name: "record",
    about: "Records results of the Rust for a program that replays them.",
    usage: "[--seed S] [--tries T] -o FILE",
    details: || {
        "\
Writes the known jobs and those of T generated cases (default: 6000) that a list with
some of every kind, every refusal and every rare event needs, with the Rust's results.
All numbers are u32, little-endian: the count of records; then for each the length of
the job, the job, lengths of workspace and answer buffer, the refusal number or 0, the
length of the answer or 0, and a hash of the whole answer buffer: from 0, each byte
takes it to (hash * 16777619 + byte + 1) modulo 4294967291. No job is longer than 4096
bytes, no workspace than 4194305, no buffer than 1048576. Prints how many there are of
each sort.
"
        .into()
    },
    options: &["--seed", "--tries", "-o"],
    run: record_results,
};

fn record_results(arguments: Arguments) -> Result<(), Failure> {
    arguments.plain([])?;
    let seed = arguments.number("--seed")?.unwrap_or(1);
    let tries = arguments.number("--tries")?.unwrap_or(6_000);
    let file = arguments.needed("-o")?;
    let list = record(&mut open_original()?, seed, tries)?;
    let bytes = list.bytes();
    write_to(Some(file), &bytes)?;
    for (sort, times) in &list.sorts {
        print(&format!("{times:>8}  {sort}\n"))?;
    }
    print(&format!(
        "{} records, {} bytes\n",
        list.count(),
        bytes.len()
    ))
}
