//! The command line: one sub-command each for answering, showing, encoding,
//! decoding, generating, running, comparing, picking and holding the
//! definitions to the original.

mod arguments;
mod commands;

use std::process::ExitCode;

use arguments::Arguments;
use commands::{Command, COMMANDS};

const ABOUT: &str = "\
facetings-host: the original Rust faceting beside the register

usage: facetings-host COMMAND [ARGUMENTS]
       facetings-host COMMAND --help

commands:
";

const STATUSES: &str = "
exit status:
  0  fine
  1  a difference, or a refused job where that is the command's message
  2  bad usage or bad input
  3  the Rust source, or a proved library, is not there
";

/// Why a command did not end well: its exit status and one line.
pub struct Failure {
    /// The exit status.
    pub status: u8,
    /// The line on standard error.
    pub words: String,
}

/// A difference, or a refused job.
pub const DIFFERENT: u8 = 1;
/// Bad usage or bad input.
pub const BAD_INPUT: u8 = 2;
/// The Rust source, or a proved library, is not there.
pub const ABSENT: u8 = 3;

impl From<String> for Failure {
    fn from(words: String) -> Self {
        Self {
            status: BAD_INPUT,
            words,
        }
    }
}

fn main() -> ExitCode {
    let words: Vec<String> = std::env::args_os()
        .skip(1)
        .map(|word| word.to_string_lossy().into_owned())
        .collect();
    match run(&words) {
        Ok(()) => ExitCode::SUCCESS,
        Err(failure) => {
            eprintln!("facetings-host: {}", failure.words);
            ExitCode::from(failure.status)
        }
    }
}

fn run(words: &[String]) -> Result<(), Failure> {
    let Some((name, rest)) = words.split_first() else {
        return Err(format!("no command; one of: {}", names()).into());
    };
    if is_help(name) {
        return print_overview();
    }
    let Some(command) = COMMANDS.iter().find(|command| command.name == name) else {
        return Err(format!("'{name}' is no command; one of: {}", names()).into());
    };
    if rest.iter().any(|word| is_help(word)) {
        return commands::print(&help(command));
    }
    (command.run)(Arguments::read(rest, command.options)?)
}

fn is_help(word: &str) -> bool {
    matches!(word, "--help" | "-h" | "help")
}

fn names() -> String {
    let names: Vec<&str> = COMMANDS.iter().map(|command| command.name).collect();
    names.join(", ")
}

fn print_overview() -> Result<(), Failure> {
    let line = |command: &Command| format!("  {:<16} {}\n", command.name, command.about);
    let lines: String = COMMANDS.iter().map(line).collect();
    commands::print(&format!("{ABOUT}{lines}{STATUSES}"))
}

fn help(command: &Command) -> String {
    let Command {
        name,
        about,
        usage,
        details,
        ..
    } = command;
    let details = details();
    format!("usage: facetings-host {name} {usage}\n\n{about}\n\n{details}{STATUSES}")
}
