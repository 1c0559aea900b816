//! The plain entries of sets, in place of answers: both counts of the label's line, and
//! the numbers of those that are plain; behind all sets what is promised of them.

use faceting_register::Register;
use facetings_host::format::vertex_set::VertexSet;
use facetings_host::report::label::{left_out, Count};
use facetings_host::report::Report;

use crate::inputs;
use crate::options::Options;
use crate::outcome::{outcome, Outcome, Status};
use crate::{complain, output};

/// Prints a line for every set; one that has none is told of and does not hold up the
/// others.
pub fn run(options: &Options) -> Status {
    let mut register = match Register::open() {
        Ok(register) => register,
        Err(absent) => return complain(&absent.to_string(), Status::Absent),
    };
    let mut worst = Status::Answered;
    let mut all = Count::default();
    for input in inputs::inputs(&options.inputs) {
        for named in inputs::read(&input) {
            let found = outcome(&mut register, &named.set, options);
            all = found.report().map_or(all, |report| all.plus(report.count));
            worst = worst.max(told(&named.set, &found, options.strict));
        }
    }
    match all.promise().filter(|_| !options.quiet) {
        Some(promise) => worst.max(print(&format!("plain: {promise}\n"))),
        None => worst,
    }
}

/// The line of a set: on standard output where it was answered.
fn told(set: &VertexSet, found: &Outcome, strict: bool) -> Status {
    let name = &set.subject.name;
    match found.report() {
        Some(report) => print(&format!("{name}: {}\n", line(report))).max(found.status(strict)),
        None => complain(&format!("{name}: {}", found.line()), found.status(strict)),
    }
}

/// How many figures there are, how many of them are plain, and which.
fn line(report: &Report) -> String {
    let both = report.count.both(left_out(&report.job, report.count.cut));
    let plain = report.plain.iter().flatten();
    let numbers: Vec<String> = plain.map(u32::to_string).collect();
    match numbers.is_empty() {
        true => both,
        false => format!("{both}: {}", numbers.join(" ")),
    }
}

fn print(line: &str) -> Status {
    match output::print(line.as_bytes()) {
        Ok(()) => Status::Answered,
        Err(words) => complain(&words, Status::Bad),
    }
}
