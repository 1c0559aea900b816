//! Many calls of the register, and the stack of one.

use faceting_register::bounds::workspace_length;
use faceting_register::register::Exported;
use faceting_register::request::USUAL_ROOM;
use facetings_host::measure::load::{run as run_calls, small_jobs, workloads, Run};
use facetings_host::measure::stack;
use facetings_host::measure::workload::Workload;

use super::register::open_register;
use super::{print, Command};
use crate::arguments::Arguments;
use crate::{Failure, DIFFERENT};

/// `load`.
pub const LOAD: Command = Command {
    name: "load",
    about: "Calls the register many times; measures memory and stack.",
    usage: "[--count N] [--large M] [--only WORD] [--library FILE]",
    details: || {
        "\
Makes N calls on small jobs and refusals (default: 10000000) and M calls on the
largest accepted jobs (default: 600), and prints the memory that the process holds
before and after each run. Then runs each measured job on a painted stack and prints
how much of it the call takes. Exit status 1 if the memory grows by more than 64 kB
or a call takes a megabyte of stack. --only takes the measured jobs whose names hold
the word instead of the largest, as for a profile.
"
        .into()
    },
    options: &["--count", "--large", "--only", "--library"],
    run,
};

/// What a run may add to the process's memory, in kilobytes: the counters' own noise.
const MOST_GROWTH: u64 = 64;

/// Words in the names of the largest measured jobs.
const LARGEST: &[&str] = &["1,024", "256", "dodecahedron", "20 points"];

const MOST_STACK: usize = 1 << 20;

fn run(arguments: Arguments) -> Result<(), Failure> {
    arguments.plain([])?;
    let count = arguments.number("--count")?.unwrap_or(10_000_000);
    let large = arguments.number("--large")?.unwrap_or(600);
    let mut register = open_register(&arguments)?;
    let small = run_calls(&mut register, &small_jobs()?, count, 4_096)?;
    print(&told("small", &small))?;
    let (chosen, deep) = match arguments.text("--only") {
        Some(word) => (workloads(&[word]), workloads(&[word])),
        None => (workloads(LARGEST), workloads(&[""])),
    };
    let jobs: Vec<Vec<u8>> = chosen.iter().map(|one| one.job.write()).collect();
    let large = run_calls(&mut register, &jobs, large, USUAL_ROOM)?;
    print(&told("large", &large))?;
    let deepest = deepest(register.function(), &deep)?;
    let grown = [&small, &large].map(|run| run.after.saturating_sub(run.before));
    if grown.iter().any(|&more| more > MOST_GROWTH) {
        return Err(wrong(format!("the memory grows: {grown:?} kB")));
    }
    match deepest {
        0..MOST_STACK => Ok(()),
        _ => Err(wrong(format!("a call takes {deepest} bytes of stack"))),
    }
}

fn wrong(words: String) -> Failure {
    Failure {
        status: DIFFERENT,
        words,
    }
}

fn told(name: &str, run: &Run) -> String {
    format!(
        "{} {name} calls, {} answered, in {:.1} s, {:.0} a second; memory {} kB before, {} kB after\n",
        run.calls,
        run.answered,
        run.seconds,
        run.calls as f64 / run.seconds,
        run.before,
        run.after
    )
}

/// Prints the stack of each measured job, and gives the largest.
fn deepest(function: Exported, jobs: &[Workload]) -> Result<usize, Failure> {
    let mut deepest = 0;
    let mut workspace = vec![0; workspace_length(4)];
    let mut answer = vec![0; USUAL_ROOM];
    for one in jobs {
        let job = one.job.write();
        let (bytes, code) = stack::used(function, &job, &mut workspace, &mut answer)?;
        print(&format!(
            "{bytes:>9} bytes of stack: {} (rank {}, returns {code})\n",
            one.name, one.job.rank
        ))?;
        deepest = deepest.max(bytes);
    }
    Ok(deepest)
}
