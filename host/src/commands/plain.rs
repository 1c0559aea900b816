//! The plain entries of jobs beside the original's `filter_irc`.

use faceting_register::bounds::WORKSPACE;
use faceting_register::plain::PLAIN_ROOM;
use faceting_register::{Engine, Register};
use facetings_host::compare::plain::compare_generated;
use facetings_host::measure::workload::table;

use super::{absent, open_original, print, Command};
use crate::arguments::Arguments;
use crate::{Failure, DIFFERENT};

/// `compare-plain`.
pub const COMPARE_PLAIN: Command = Command {
    name: "compare-plain",
    about: "Compares plain entries with the original's, and times the call.",
    usage: "[--seed S] [--count N]",
    details: || {
        "\
Puts N generated jobs (default: 2000), whole and damaged, to register_plain, in
buffers that are poisoned: exactly full, longer, and one byte short. The numbers are
compared with what the original's filter_irc returns on the split lists of its own
answer; every entry left out must hold another, and every compound must be left out.
Then times register_plain and register_answer on the workloads of 'speed', the
least of five runs of each. Exit status 1 if any call differs.
"
        .into()
    },
    options: &["--seed", "--count"],
    run: compare_plain,
};

/// The least of so many runs is taken.
const RUNS: usize = 5;

fn compare_plain(arguments: Arguments) -> Result<(), Failure> {
    arguments.plain([])?;
    let seed = arguments.number("--seed")?.unwrap_or(1);
    let count: usize = arguments.number("--count")?.unwrap_or(2_000);
    let oracle = open_original()?;
    let mut register = Register::open().map_err(absent)?;
    let compared = compare_generated(&mut register, &oracle, seed, count);
    let met = compared.map_err(|words| Failure {
        status: DIFFERENT,
        words,
    })?;
    print(&format!(
        "{} jobs in {} calls, {} of them refused: no difference\n\
         {} entries, {} left out, {} of these with a label and {} without; \
         {} kept that another stands inside of\n",
        met.jobs,
        met.calls,
        met.refused,
        met.entries,
        met.left_out,
        met.labelled,
        met.left_out_unlabelled,
        met.kept_with_another
    ))?;
    timed(&mut register)
}

/// Both calls on each workload, the answer in a buffer of its length.
fn timed(register: &mut Register) -> Result<(), Failure> {
    let mut answer = vec![0; 1 << 24];
    for workload in table() {
        let job = workload.job.write();
        let length = register.answer(&job, WORKSPACE, &mut answer);
        let Ok(length) = usize::try_from(length) else {
            continue;
        };
        let mut least = [f64::MAX; 2];
        for _ in 0..RUNS {
            let whole = seconds(|| {
                register.answer(&job, WORKSPACE, &mut answer[..length]);
            });
            let plain = seconds(|| {
                register.plain(&job, WORKSPACE, &mut answer[..PLAIN_ROOM]);
            });
            least = [least[0].min(whole), least[1].min(plain)];
        }
        let [whole, plain] = least.map(|seconds| 1e3 * seconds);
        print(&format!(
            "{}: the answer {whole:.2} ms, the plain entries {plain:.2} ms\n",
            workload.name
        ))?;
    }
    Ok(())
}

/// The time that this takes.
fn seconds(work: impl FnOnce()) -> f64 {
    let start = std::time::Instant::now();
    work();
    start.elapsed().as_secs_f64()
}
