//! The register's own command: a vertex set in, its page out.

mod crew;
mod gathered;
mod inputs;
mod noble;
mod options;
mod order;
mod outcome;
mod output;
mod places;
mod plain;
mod price;
mod progress;
mod quotes;
mod resume;
mod symmetry;
mod work;
mod works;

use std::process::ExitCode;

use facetings_host::format::text::RULES;

use options::{Options, Told};
use outcome::Status;

/// What the command is, its options and statuses; the script prints it too.
const ABOUT: &str = include_str!(concat!(env!("CARGO_MANIFEST_DIR"), "/help/register.txt"));

/// The name and the version, as the script tells them too.
const VERSION: &str = concat!("register ", env!("CARGO_PKG_VERSION"), "\n");

fn main() -> ExitCode {
    let status = match Options::read(std::env::args_os().skip(1)) {
        Ok(options) => match options.told {
            Some(Told::Help) => print(&format!("{ABOUT}{RULES}")),
            Some(Told::Version) => print(VERSION),
            None if options.symmetry => symmetry::run(&options),
            None if options.quotes_alone() => price::run(&options),
            None if options.noble.is_some() => noble::run(&options),
            None if options.plain => plain::run(&options),
            None => work::run(&options),
        },
        Err(words) => complain(&words, Status::Bad),
    };
    ExitCode::from(status as u8)
}

fn print(text: &str) -> Status {
    match output::print(text.as_bytes()) {
        Ok(()) => Status::Answered,
        Err(words) => complain(&words, Status::Bad),
    }
}

/// One line on standard error.
fn complain(words: &str, status: Status) -> Status {
    output::tell(&format!("register: {words}\n"));
    status
}
