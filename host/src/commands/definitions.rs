//! Holds the definitions to the Rust: the checker evaluates them on picked cases.

use std::path::{Path, PathBuf};
use std::process::Command as Process;

use facetings_host::cases::sample::{self, Sample};
use facetings_host::compare::definitions as tests;

use super::streams::chosen_kind;
use super::{open_original, print, Command};
use crate::arguments::Arguments;
use crate::{Failure, DIFFERENT};

/// `definitions`.
pub const DEFINITIONS: Command = Command {
    name: "definitions",
    about: "Evaluates the definitions on picked cases.",
    usage: "--seed S --count N [--tries T] [--kind K] [--crate DIR] --scratch DIR",
    details: || {
        "\
Picks N small cases as pick does, or only cases of the kind K, writes a scratch repository to an empty or new
folder with a copy of the definitions (default: crates/definitions) and a test
for each case that expects the Rust's value and buffer, runs 'rt check' there,
and says how many agree and which do not. Takes about a second a case.
"
        .into()
    },
    options: &[
        "--seed",
        "--count",
        "--tries",
        "--kind",
        "--crate",
        "--scratch",
    ],
    run,
};

fn run(arguments: Arguments) -> Result<(), Failure> {
    arguments.plain([])?;
    let seed = arguments.needed_number("--seed")?;
    let count: usize = arguments.needed_number("--count")?;
    let tries = arguments.number("--tries")?.unwrap_or(100_000);
    let definitions = Path::new(arguments.text("--crate").unwrap_or("crates/definitions"));
    if !definitions.join("specs/Examples.antt").is_file() {
        let words = format!("{} is not the crate of definitions", definitions.display());
        return Err(words.into());
    }
    let scratch = new_folder(arguments.needed("--scratch")?)?;
    let kind = chosen_kind(&arguments)?;
    let cases = sample::pick(&mut open_original()?, seed, count, tries, kind);
    tests::write(&scratch, definitions, &cases)
        .map_err(|error| format!("cannot write {}: {error}", scratch.display()))?;
    report(&cases, &check(&scratch)?)
}

/// The folder, if nothing stands in it yet.
fn new_folder(name: &str) -> Result<PathBuf, Failure> {
    let folder = PathBuf::from(name);
    std::fs::create_dir_all(&folder).map_err(|error| format!("cannot make {name}: {error}"))?;
    let unread = |error| format!("cannot read {name}: {error}");
    match std::fs::read_dir(&folder).map_err(unread)?.next() {
        None => Ok(folder),
        Some(_) => Err(format!("{name} is not empty").into()),
    }
}

/// What the checker prints, and whether it proved all.
struct Checked {
    proved: bool,
    output: String,
}

fn check(scratch: &Path) -> Result<Checked, Failure> {
    let result = Process::new("rt")
        .arg("check")
        .current_dir(scratch.join("crates/held"))
        .output()
        .map_err(|error| format!("cannot run rt: {error}"))?;
    let both = [result.stdout, result.stderr].concat();
    Ok(Checked {
        proved: result.status.success(),
        output: String::from_utf8_lossy(&both).into_owned(),
    })
}

fn report(cases: &[Sample], checked: &Checked) -> Result<(), Failure> {
    let differing = tests::differing(&checked.output);
    for &number in &differing {
        let tags = cases.get(number).map_or(String::new(), Sample::tag_line);
        print(&format!("case {number} differs: {tags}\n"))?;
    }
    for (tag, times) in sample::tag_counts(cases) {
        print(&format!("{times:>8}  {tag}\n"))?;
    }
    if checked.proved {
        return print(&format!("{} cases, all agree\n", cases.len()));
    }
    let words = match differing.len() {
        0 => "rt check failed for another reason; see the scratch folder".into(),
        some => format!("{some} of {} cases differ", cases.len()),
    };
    Err(Failure {
        status: DIFFERENT,
        words,
    })
}
