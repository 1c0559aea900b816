//! Jobs with packages beside the original called with that package.

use std::time::Instant;

use faceting_register::bounds::WORKSPACE;
use faceting_register::{Engine, Register};
use facetings_host::compare::noble::compare_generated;
use facetings_host::engines::oracle::Oracle;
use facetings_host::measure::workload::nobles;

use super::{absent, open_original, print, Command};
use crate::arguments::Arguments;
use crate::{Failure, DIFFERENT};

/// `compare-noble`.
pub const COMPARE_NOBLE: Command = Command {
    name: "compare-noble",
    about: "Compares jobs with packages with the original's.",
    usage: "[--seed S] [--count N]",
    details: || {
        "\
Puts N generated jobs (default: 2000), whole and damaged, each with a generated
package, whole or damaged, to register_noble, in buffers that are poisoned: exactly
full, longer, and one byte short. Every byte and refusal is compared with the
original's, called with that package. Which orbits are kept is worked out a second
time; and where no limit is set and shares are equal, no listed choice may have
another inside, and where all orbits are kept the choices must be those of the call
without a package that have none. Then times both on as many orbits and full rows as
there may be, the least of several runs, taken in turn. Exit status 1 if any call
differs.
"
        .into()
    },
    options: &["--seed", "--count"],
    run: compare_noble,
};

fn compare_noble(arguments: Arguments) -> Result<(), Failure> {
    arguments.plain([])?;
    let seed = arguments.number("--seed")?.unwrap_or(1);
    let count: usize = arguments.number("--count")?.unwrap_or(2_000);
    let mut oracle = open_original()?;
    let mut register = Register::open().map_err(absent)?;
    let compared = compare_generated(&mut register, &oracle, seed, count);
    let met = compared.map_err(|words| Failure {
        status: DIFFERENT,
        words,
    })?;
    print(&format!(
        "{} packages in {} calls, {} of them refused, {} with 18: no difference\n\
         {} orbits, {} of them dropped, {} packages with a key marked anew; {} entries, \
         {} of them of closed rows, all carried to themselves\n\
         {} answers held to the call without a package, where {} choices have another inside\n",
        met.packages,
        met.calls,
        met.refused,
        met.for_the_package,
        met.orbits,
        met.dropped,
        met.marked_anew,
        met.entries,
        met.carried,
        met.held,
        met.not_minimal
    ))?;
    timed(&mut register, &mut oracle)
}

/// The least of so many runs is taken.
const RUNS: usize = 20;

/// Both engines on each workload, the answer in a buffer of its length.
fn timed(register: &mut Register, oracle: &mut Oracle) -> Result<(), Failure> {
    let mut answer = vec![0; 1 << 24];
    for workload in nobles() {
        let (job, package) = (workload.job.write(), workload.package.write());
        let mut least = [f64::MAX; 2];
        let mut codes = [0; 2];
        for _ in 0..RUNS {
            let engines: [&mut dyn Engine; 2] = [register, oracle];
            for (side, engine) in engines.into_iter().enumerate() {
                let room = usize::try_from(codes[side]).unwrap_or(0);
                let room = if room == 0 { answer.len() } else { room };
                let start = Instant::now();
                let code = engine.noble(&job, &package, WORKSPACE, &mut answer[..room]);
                least[side] = least[side].min(start.elapsed().as_secs_f64());
                codes[side] = code.unwrap_or(0);
            }
        }
        if codes[0] != codes[1] {
            return Err(Failure {
                status: DIFFERENT,
                words: format!("{}: codes {codes:?}", workload.name),
            });
        }
        let [ours, original] = least.map(|seconds| 1e6 * seconds);
        print(&format!(
            "{}: the register {ours:.0} us, the Rust {original:.0} us, {:.1} times\n",
            workload.name,
            original / ours
        ))?;
    }
    Ok(())
}
