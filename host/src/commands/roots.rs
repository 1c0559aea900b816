//! The proved square root beside the processor's.

use facetings_host::measure::roots;

use super::{absent, print, Command};
use crate::arguments::Arguments;
use crate::{Failure, DIFFERENT};

/// `roots`.
pub const ROOTS: Command = Command {
    name: "roots",
    about: "Compares the proved square root with the processor's.",
    usage: "[--seed S] [--count N]",
    details: || {
        "\
Compares special values and N drawn ones (default: 10000000), prints those that
differ, and measures a step of a chain of roots in one run. The library with the
proved root is linked where './library root' has left it before the build.
"
        .into()
    },
    options: &["--seed", "--count"],
    run,
};

fn run(arguments: Arguments) -> Result<(), Failure> {
    arguments.plain([])?;
    let seed = arguments.number("--seed")?.unwrap_or(1);
    let count = arguments.number("--count")?.unwrap_or(10_000_000);
    if !roots::LINKED {
        return Err(absent(roots::NotLinked));
    }
    let (compared, wrong) = roots::compare(roots::proved, seed, count);
    for x in wrong.iter().take(10) {
        print(&format!("differs at {x:e} ({:016x})\n", x.to_bits()))?;
    }
    if !wrong.is_empty() {
        return Err(Failure {
            status: DIFFERENT,
            words: format!("{} of {compared} roots differ", wrong.len()),
        });
    }
    let [proved, processor, none] = roots::latencies();
    print(&format!(
        "{compared} roots, no difference\n\
         a step: proved {proved:.2} ns, processor {processor:.2} ns, no root {none:.2} ns\n\
         ratio {:.2} with the chain's own sum, {:.2} without it\n",
        proved / processor,
        (proved - none) / (processor - none)
    ))
}
