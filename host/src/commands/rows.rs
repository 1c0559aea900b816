//! Rows of jobs beside single calls.

use faceting_register::batch::row;
use faceting_register::bounds::WORKSPACE;
use faceting_register::{Engine, Register};
use facetings_host::cases::known_jobs::KNOWN_JOBS;
use facetings_host::compare::rows::compare_generated;

use super::{absent, print, Command};
use crate::arguments::Arguments;
use crate::{Failure, DIFFERENT};

/// `compare-rows`.
pub const COMPARE_ROWS: Command = Command {
    name: "compare-rows",
    about: "Compares rows of jobs with single calls, and times both.",
    usage: "[--seed S] [--count N]",
    details: || {
        "\
Puts N generated rows (default: 2000) of 0 to 12 jobs to register_batch, in buffers
that are poisoned: exactly full, longer, and one byte short; and with a byte behind
the last job. Each record is compared with a call of register_answer. Then times
1,000 squares in a buffer of 64 MB beside 1,000 single calls with buffers of the
answer's length and one clearing of 64 MB (a row of no jobs), twenty times in turn.
Exit status 1 if any call differs.
"
        .into()
    },
    options: &["--seed", "--count"],
    run: compare_rows,
};

/// How many squares are timed, and the buffer for their records.
const SQUARES: usize = 1_000;
const ROOM: usize = 64 << 20;

/// The least of so many runs is taken.
const RUNS: usize = 20;

fn compare_rows(arguments: Arguments) -> Result<(), Failure> {
    arguments.plain([])?;
    let seed = arguments.number("--seed")?.unwrap_or(1);
    let count: usize = arguments.number("--count")?.unwrap_or(2_000);
    let mut register = Register::open().map_err(absent)?;
    let met = compare_generated(&mut register, seed, count).map_err(|words| Failure {
        status: DIFFERENT,
        words,
    })?;
    print(&format!(
        "{} rows, {} jobs, {} of them refused, {} bytes of records: no difference\n",
        met.rows, met.jobs, met.refused, met.bytes
    ))?;
    timed(&mut register)
}

/// A row beside single calls and one clearing of the same buffer.
fn timed(register: &mut Register) -> Result<(), Failure> {
    let square = KNOWN_JOBS
        .iter()
        .find(|known| known.name.contains("square"));
    let square = square
        .ok_or_else(|| "no known job is a square".to_string())?
        .job()?;
    let jobs = row(std::iter::repeat(&square[..]).take(SQUARES));
    let mut buffer = vec![1; ROOM];
    let mut answer = vec![1; 1 << 20];
    let length = register.answer(&square, WORKSPACE, &mut answer);
    let length = usize::try_from(length).map_err(|_| "the square is refused".to_string())?;
    let mut least = [f64::MAX; 3];
    for _ in 0..RUNS {
        let together = seconds(|| {
            register.answer_row(&jobs, WORKSPACE, &mut buffer);
        });
        let cleared = seconds(|| {
            register.answer_row(&[], WORKSPACE, &mut buffer);
        });
        let single = seconds(|| {
            for _ in 0..SQUARES {
                register.answer(&square, WORKSPACE, &mut answer[..length]);
            }
        });
        for (least, now) in least.iter_mut().zip([together, cleared, single]) {
            *least = least.min(now);
        }
    }
    let [together, cleared, single] = least.map(|seconds| 1e3 * seconds);
    let ratio = together / (single + cleared);
    print(&format!(
        "{SQUARES} squares, processor time: a row {together:.1} ms; single calls {single:.1} ms and a clearing {cleared:.1} ms; {ratio:.2} times\n"
    ))
}

extern "C" {
    fn clock() -> std::ffi::c_long;
}

/// The processor's time that this takes, by the system's clock of a million ticks a
/// second; other programs do not count.
fn seconds(work: impl FnOnce()) -> f64 {
    // It takes nothing and returns a number.
    let start = unsafe { clock() };
    work();
    (unsafe { clock() } - start) as f64 / 1e6
}
