//! The table of commands, and what they share: files in, files or lines out.

mod definitions;
mod jobs;
mod load;
mod mutants;
mod noble;
mod plain;
mod register;
mod roots;
mod rows;
mod speed;
mod streams;

use std::error::Error;
use std::io::Write;

use facetings_host::engines::oracle::Oracle;

use crate::arguments::Arguments;
use crate::{Failure, ABSENT};

/// A command with its help.
pub struct Command {
    /// The word that it is called by.
    pub name: &'static str,
    /// What it does, in a line.
    pub about: &'static str,
    /// The words that it takes.
    pub usage: &'static str,
    /// The rest of its help.
    pub details: fn() -> String,
    /// The options that it knows; each takes a value.
    pub options: &'static [&'static str],
    /// The command itself.
    pub run: fn(Arguments) -> Result<(), Failure>,
}

/// Every command, in the order of the overview.
pub const COMMANDS: &[Command] = &[
    jobs::ANSWER,
    jobs::ORBITS,
    jobs::SHOW,
    jobs::ENCODE,
    jobs::DECODE,
    streams::GENERATE,
    streams::RUN,
    streams::COMPARE,
    streams::PICK,
    definitions::DEFINITIONS,
    roots::ROOTS,
    register::COMPARE_REGISTER,
    rows::COMPARE_ROWS,
    plain::COMPARE_PLAIN,
    noble::COMPARE_NOBLE,
    speed::SPEED,
    load::LOAD,
    register::RECORD,
    mutants::MUTANTS,
];

/// The original, or the failure of a command that needs it.
fn open_original() -> Result<Oracle, Failure> {
    Oracle::open().map_err(absent)
}

/// The failure of a command that lacks what it needs.
fn absent(what: impl Error) -> Failure {
    Failure {
        status: ABSENT,
        words: what.to_string(),
    }
}

fn read_file(name: &str) -> Result<Vec<u8>, Failure> {
    std::fs::read(name).map_err(|error| format!("cannot read {name}: {error}").into())
}

fn read_text(name: &str) -> Result<String, Failure> {
    let bytes = read_file(name)?;
    String::from_utf8(bytes).map_err(|_| format!("{name} is not text").into())
}

/// Bytes to the named file, or to standard output if there is none.
fn write_to(file: Option<&str>, bytes: &[u8]) -> Result<(), Failure> {
    let (written, place) = match file {
        Some(name) => (std::fs::write(name, bytes), name),
        None => (put_out(bytes), "standard output"),
    };
    written.map_err(unwritten(place))
}

fn unwritten(place: &str) -> impl Fn(std::io::Error) -> Failure + '_ {
    move |error| format!("cannot write {place}: {error}").into()
}

/// A reader that has seen enough and closes its end is no failure.
fn put_out(bytes: &[u8]) -> std::io::Result<()> {
    let mut out = std::io::stdout().lock();
    match out.write_all(bytes).and_then(|()| out.flush()) {
        Err(error) if error.kind() == std::io::ErrorKind::BrokenPipe => Ok(()),
        other => other,
    }
}

/// To standard output.
pub fn print(text: &str) -> Result<(), Failure> {
    write_to(None, text.as_bytes())
}
