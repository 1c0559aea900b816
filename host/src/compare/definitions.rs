//! Sample cases as tests that the checker evaluates against the definitions: a
//! scratch repository with a copy of the definitions and one crate of tests.

use std::path::Path;
use std::{fs, io};

use crate::cases::sample::Sample;

/// Tests to a file: enough that a file's own cost is small, and few enough that
/// a file is read quickly.
const TO_A_FILE: usize = 20;

const HEAD: &str = "\
use Rattle.std.specs.Prelude.{List, [], ◌∷◌, T}
use Rattle.definitions.specs.Open.{open_all}
use Rattle.definitions.specs.Examples.{gives, refuses, open_examples, passes}
";

/// Writes the scratch repository: `definitions` as it stands, and `held`.
pub fn write(place: &Path, definitions: &Path, cases: &[Sample]) -> io::Result<()> {
    let crates = place.join("crates");
    copy_tree(
        &definitions.join("specs"),
        &crates.join("definitions/specs"),
    )?;
    put(&crates.join("definitions/src/lib.rt"), "")?;
    put(
        &place.join("crates.txt"),
        "definitions:\nheld: definitions\n",
    )?;
    put(&crates.join("held/src/lib.rt"), "")?;
    let specs = crates.join("held/specs");
    let mut modules = String::new();
    for (number, chunk) in cases.chunks(TO_A_FILE).enumerate() {
        let first = number * TO_A_FILE;
        let tests: String = (first..).zip(chunk).map(test).collect();
        put(
            &specs.join(format!("Held{number}.antt")),
            &format!("{HEAD}{tests}"),
        )?;
        modules += &format!("pub mod Held{number}\n");
    }
    put(&specs.join("Lib.antt"), &modules)
}

/// One case as a theorem that is proved by computing it.
fn test((number, picked): (usize, &Sample)) -> String {
    let (case, outcome) = (&picked.case, &picked.outcome);
    let job = list(case.job.iter());
    let expected = match usize::try_from(outcome.code) {
        Ok(length) => format!("gives ({})", list(words(&outcome.buffer[..length]))),
        Err(_) => format!("refuses {}", outcome.code.unsigned_abs()),
    };
    let (workspace, room) = (case.workspace, outcome.buffer.len());
    format!(
        "
-- {}
case-{number} : T (passes (record {{ job = {job}; workspace = {workspace}; room = {room}; expected = {expected} }}))
unfolding open_all open_examples
case-{number} = tt
",
        picked.tag_line()
    )
}

fn list(numbers: impl Iterator<Item = impl std::fmt::Display>) -> String {
    numbers
        .map(|number| format!("{number} ∷ "))
        .collect::<String>()
        + "[]"
}

fn words(bytes: &[u8]) -> impl Iterator<Item = u32> + '_ {
    let word = |four: &[u8]| four.iter().rev().fold(0, |sum, &b| sum << 8 | u32::from(b));
    bytes.chunks(4).map(word)
}

fn put(file: &Path, text: &str) -> io::Result<()> {
    if let Some(folder) = file.parent() {
        fs::create_dir_all(folder)?;
    }
    fs::write(file, text)
}

fn copy_tree(from: &Path, to: &Path) -> io::Result<()> {
    fs::create_dir_all(to)?;
    for entry in fs::read_dir(from)? {
        let entry = entry?;
        let target = to.join(entry.file_name());
        match entry.file_type()?.is_dir() {
            true => copy_tree(&entry.path(), &target)?,
            false => fs::copy(entry.path(), target).map(|_| ())?,
        }
    }
    Ok(())
}

/// The numbers of the tests that the checker's output names as wrong.
pub fn differing(output: &str) -> Vec<usize> {
    let named = |line: &str| {
        let rest = line.split_once("error: `case-")?.1;
        rest.split_once('`')?.0.parse().ok()
    };
    let mut numbers: Vec<usize> = output.lines().filter_map(named).collect();
    numbers.sort_unstable();
    numbers.dedup();
    numbers
}

#[cfg(test)]
mod tests {
    use super::*;

    #[test]
    fn words_are_little_endian() {
        let bytes = [1, 0, 0, 0, 0, 1, 0, 0, 0, 0, 0, 255];
        assert_eq!(words(&bytes).collect::<Vec<_>>(), [1, 256, 0xff00_0000]);
    }

    #[test]
    fn errors_name_their_cases_once() {
        let output = "x/Held0.antt:9:3: error: `case-7`: expected\nnote\n\
            x/Held1.antt:4:1: error: `case-21`: expected\nx: error: `case-7`: again\n";
        assert_eq!(differing(output), [7, 21]);
    }
}
