//! How long the register takes beside the Rust.

use std::time::Duration;

use faceting_register::bounds::TOLERANCE;
use faceting_register::job::{Job, TOLERANCE_VERSION};
use facetings_host::cases::generator::TRIED;
use facetings_host::measure::speed::{cases, Effort, Stopwatch, Timing};
use facetings_host::measure::workload::{self, Workload};

use super::register::open_register;
use super::{open_original, print, Command};
use crate::arguments::Arguments;
use crate::{Failure, DIFFERENT};

/// `speed`.
pub const SPEED: Command = Command {
    name: "speed",
    about: "Measures the register beside the Rust.",
    usage: "[--only WORD] [--seed S] [--cases N] [--lists B] [--seconds T] [--library FILE]",
    details: || {
        "\
For each job of a table: the best time of several runs of the register and of the
Rust, taken in turn, and how many times as fast the register is. T seconds (default:
1) are spent on a job, at least three runs. Buffers are cleared on both sides; the
answer buffer is as long as the answer. Then how the time grows: parabolas of 5 to 20
points with a budget of B lists (default: 20000), one parabola with growing budgets,
one job with growing numbers of rows, points of space with growing numbers of
orbits, and what a list of these costs in the search alone. Then the jobs of the table
at each of four tolerances, beside their time at 0.0000001. Last, of N generated
cases (default: 3000) those that take either side a millisecond: how many, and where
the register does worst. Exit status 1 if it is slower than the Rust on a job of the
table or on such a case. --only takes the jobs whose names hold the word, as for a
profile.
"
        .into()
    },
    options: &[
        "--only",
        "--seed",
        "--cases",
        "--lists",
        "--seconds",
        "--library",
    ],
    run,
};

const HEAD: &str = "    register        Rust   ratio      lists   lists/s  job\n";

fn run(arguments: Arguments) -> Result<(), Failure> {
    arguments.plain([])?;
    let seed = arguments.number("--seed")?.unwrap_or(1);
    let cases = arguments.number("--cases")?.unwrap_or(3_000);
    let lists = arguments.number("--lists")?.unwrap_or(20_000);
    let seconds = arguments.number("--seconds")?.unwrap_or(1);
    let mut register = open_register(&arguments)?;
    let mut watch = Stopwatch {
        oracle: &mut open_original()?,
        register: &mut register,
    };
    let effort = Effort {
        least: 3,
        most: 2_000,
        time: Duration::from_secs(seconds),
    };
    let word = arguments.text("--only").unwrap_or("");
    let only = |jobs: Vec<Workload>| {
        let chosen = jobs.into_iter().filter(|one| one.name.contains(word));
        chosen.collect::<Vec<_>>()
    };
    let slower = table(&mut watch, "jobs", &only(workload::table()), effort)?;
    for (title, jobs) in growing(lists) {
        table(&mut watch, title, &only(jobs), effort)?;
    }
    let searched = [workload::parabolas(lists), workload::planes()];
    let searched = only(searched.into_iter().flatten().collect());
    searches(&mut watch, &searched, lists, effort)?;
    tolerances(&mut watch, &only(workload::table()), effort)?;
    let slower = slower + slow_cases(&mut watch, seed, cases)?;
    match slower {
        0 => Ok(()),
        _ => Err(Failure {
            status: DIFFERENT,
            words: format!("slower than the Rust on {slower} jobs or cases"),
        }),
    }
}

/// Jobs that grow in one way each.
fn growing(lists: u32) -> [(&'static str, Vec<Workload>); 4] {
    [
        ("points: parabolas", workload::parabolas(lists)),
        (
            "lists examined: a parabola of 14 points",
            workload::budgets(),
        ),
        (
            "rows: a cube, limit 1, its row again and again",
            workload::rows(),
        ),
        (
            "orbits: moment curves of rank 4, limit 1",
            workload::planes(),
        ),
    ]
}

fn different(name: &str, words: &str) -> Failure {
    Failure {
        status: DIFFERENT,
        words: format!("{name}: {words}"),
    }
}

/// Prints a table; gives how many of its rows are slower than the Rust.
fn table(
    watch: &mut Stopwatch,
    title: &str,
    jobs: &[Workload],
    effort: Effort,
) -> Result<usize, Failure> {
    print(&format!("\n{title}\n{HEAD}"))?;
    let mut slower = 0;
    for Workload { name, job } in jobs {
        let timed = watch.time(&job.write(), effort);
        let timed = timed.map_err(|words| different(name, &words))?;
        slower += usize::from(timed.ratio() < 1.0);
        print(&line(name, &timed))?;
    }
    Ok(slower)
}

/// A job that ends at the start of its outermost search, and the same job that goes
/// on to a budget of so many lists: all that comes before that search cancels out.
fn before_and_after(job: &Job, lists: u32) -> (Job, Job) {
    let (mut begun, mut all) = (job.clone(), job.clone());
    if job.rank == 3 {
        begun.budget = 1;
    } else {
        begun.limit = Some(1);
    }
    all.limit = None;
    all.budget = lists;
    (begun, all)
}

/// What a list costs in the search alone.
fn searches(
    watch: &mut Stopwatch,
    jobs: &[Workload],
    lists: u32,
    effort: Effort,
) -> Result<(), Failure> {
    print("\nthe search alone\n    register        Rust  a list of the job\n")?;
    for Workload { name, job } in jobs {
        let (begun, all) = before_and_after(job, lists);
        let mut timed = |job: &Job| {
            let timed = watch.time(&job.write(), effort);
            timed.map_err(|words| different(name, &words))
        };
        let (first, all) = (timed(&begun)?, timed(&all)?);
        let lists = f64::from(all.examined.saturating_sub(first.examined).max(1));
        let each = |all: Duration, first: Duration| all.saturating_sub(first).div_f64(lists);
        print(&format!(
            "{} {}  rank {}, {name}\n",
            clock(each(all.register, first.register)),
            clock(each(all.original, first.original)),
            job.rank
        ))?;
    }
    Ok(())
}

/// The register at each tolerance that is tried: its times, and the greatest of them as
/// a multiple of the one at the usual tolerance.
fn tolerances(watch: &mut Stopwatch, jobs: &[Workload], effort: Effort) -> Result<(), Failure> {
    print("\nthe register at the tolerances 1e-9, 1e-7, 1e-5, 1e-3\n")?;
    for Workload { name, job } in jobs {
        let within = |tolerance| Job {
            version: TOLERANCE_VERSION,
            tolerance,
            ..job.clone()
        };
        let jobs: Vec<Vec<u8>> = TRIED.iter().map(|&t| within(t).write()).collect();
        let times = watch.best_of_each(&jobs, effort);
        let clocks: Vec<String> = times.iter().map(|&time| clock(time)).collect();
        let usual = TRIED.iter().position(|&t| t == TOLERANCE).unwrap_or(0);
        let slowest = times.iter().max().copied().unwrap_or_default();
        let ratio = slowest.as_secs_f64() / times[usual].as_secs_f64().max(1e-9);
        print(&format!("{} {ratio:>7.2}  {name}\n", clocks.join(" ")))?;
    }
    Ok(())
}

fn line(name: &str, timed: &Timing) -> String {
    let told = match timed.code {
        0.. => String::new(),
        code => format!(", refused {}", -code),
    };
    format!(
        "{} {} {:>7.1} {:>10} {:>9.0}  {name}{told}\n",
        clock(timed.register),
        clock(timed.original),
        timed.ratio(),
        timed.examined,
        timed.lists_a_second()
    )
}

fn clock(time: Duration) -> String {
    match time.as_nanos() {
        0..10_000 => format!("{:>9} ns", time.as_nanos()),
        10_000..10_000_000 => format!("{:>9} us", time.as_micros()),
        _ => format!("{:>9} ms", time.as_millis()),
    }
}

/// Looks for the cases that take a millisecond; gives how many are slower.
fn slow_cases(watch: &mut Stopwatch, seed: u64, count: usize) -> Result<usize, Failure> {
    let effort = Effort {
        least: 3,
        most: 5,
        time: Duration::from_millis(50),
    };
    let mut found: Vec<(String, Timing)> = Vec::new();
    for case in cases(seed, count) {
        let name = format!("case {} ({})", case.number, case.kind);
        let timed = watch.slow(&case, effort);
        let timed = timed.map_err(|words| different(&name, &words))?;
        found.extend(timed.map(|timed| (name, timed)));
    }
    found.sort_by(|a, b| a.1.ratio().total_cmp(&b.1.ratio()));
    let middle = found
        .get(found.len() / 2)
        .map_or(0.0, |case| case.1.ratio());
    print(&format!(
        "\n{} of {count} generated cases take a millisecond; the middle ratio is {middle:.1}; the worst:\n{HEAD}",
        found.len()
    ))?;
    for (name, timed) in found.iter().take(10) {
        print(&line(name, timed))?;
    }
    Ok(found.iter().filter(|case| case.1.ratio() < 1.0).count())
}
