//! Commands on many cases: generate, run, compare.

use std::collections::BTreeMap;
use std::fmt::Display;
use std::fs::File;
use std::io::{BufReader, BufWriter, Write};
use std::str::FromStr;

use facetings_host::cases::generator::{case, kind_named, Kind, KINDS};
use facetings_host::cases::run::run;
use facetings_host::cases::tally::Tally;
use facetings_host::cases::{sample, Case, Numbered, Outcome, Stream, CASES_HEAD, RESULTS_HEAD};
use facetings_host::compare::difference::compare;

use super::{open_original, print, unwritten, write_to, Command};
use crate::arguments::Arguments;
use crate::{Failure, DIFFERENT};

/// `generate`.
pub const GENERATE: Command = Command {
    name: "generate",
    about: "Generates cases from a seed.",
    usage: "--seed S --count N [--first I] [--kind K] -o CASES",
    details: || {
        "\
Writes cases I to I + N - 1 (default: I = 0), a line each: number, own seed, kind,
workspace length, length of the answer buffer ('fit+K': the answer's length and
K), job bytes in hex. A case depends on S and its number alone. Prints how often
each kind was made. Kinds:
"
        .to_string()
            + &kind_lines()
    },
    options: &["--seed", "--count", "--first", "--kind", "-o"],
    run: generate,
};

/// `run`.
pub const RUN: Command = Command {
    name: "run",
    about: "Runs a stream of cases through the Rust.",
    usage: "CASES -o RESULTS",
    details: || {
        "\
Writes a line for each case: number, kind, returned value, length of the answer
buffer, and the buffer's words in hex without the zeros at its end. Prints how
often each result and each rare event was reached.
"
        .into()
    },
    options: &["-o"],
    run: run_cases,
};

/// `compare`.
pub const COMPARE: Command = Command {
    name: "compare",
    about: "Compares two files of results.",
    usage: "A B",
    details: || {
        "\
For each case that differs, names the first difference: the returned value, or
which word of which part of the answer, with both values. Exit status 1 if any.
"
        .into()
    },
    options: &[],
    run: compare_results,
};

/// `pick`.
pub const PICK: Command = Command {
    name: "pick",
    about: "Picks small cases with the Rust's results.",
    usage: "--seed S --count N [--tries T] [-o FILE]",
    details: || {
        "\
Looks through the first T cases of a seed (default: 100000) for N small ones: at
most 6 points and 400 examined lists, spread over ranks,
rows that are closed or not, unequal shares and all refusals that fit. A line
each: job bytes in hex, workspace length, length of the answer buffer, returned
value, the whole buffer in hex, tags joined by commas. No bytes at all are '-'.
"
        .into()
    },
    options: &["--seed", "--count", "--tries", "-o"],
    run: pick_cases,
};

/// The kinds with what they are made for, a line each.
fn kind_lines() -> String {
    let line = |kind: &Kind| format!("  {:<11} {}\n", kind.name, kind.about);
    KINDS.iter().map(line).collect()
}

/// The kind that an option names, if it is given.
pub fn chosen_kind(arguments: &Arguments) -> Result<Option<&'static Kind>, Failure> {
    let Some(name) = arguments.text("--kind") else {
        return Ok(None);
    };
    let unknown = || format!("'{name}' is no kind; see generate --help").into();
    kind_named(name).map(Some).ok_or_else(unknown)
}

fn generate(arguments: Arguments) -> Result<(), Failure> {
    arguments.plain([])?;
    let seed = arguments.needed_number("--seed")?;
    let count: usize = arguments.needed_number("--count")?;
    let first: usize = arguments.number("--first")?.unwrap_or(0);
    let kind = chosen_kind(&arguments)?;
    let mut file = NewFile::create(arguments.needed("-o")?, CASES_HEAD)?;
    let mut kinds = BTreeMap::<String, usize>::new();
    for number in first..first.saturating_add(count) {
        let case = case(seed, number, kind);
        file.line(&case)?;
        *kinds.entry(case.kind).or_default() += 1;
    }
    file.close()?;
    let line = |(kind, times): (&String, &usize)| format!("{times:>8}  {kind}\n");
    print(&kinds.iter().map(line).collect::<String>())
}

fn run_cases(arguments: Arguments) -> Result<(), Failure> {
    let [file] = arguments.plain(["CASES"])?;
    let results = arguments.needed("-o")?;
    let (mut oracle, mut tally) = (open_original()?, Tally::default());
    let cases = open_stream::<Case>(file, CASES_HEAD)?;
    let mut results = NewFile::create(results, RESULTS_HEAD)?;
    for case in cases {
        let outcome = run(&mut oracle, &case.map_err(of_file(file))?);
        if let Some(judged) = &oracle.last {
            tally.add(judged, outcome.code);
        }
        results.line(&outcome)?;
    }
    results.close()?;
    print(&tally.to_string())
}

fn pick_cases(arguments: Arguments) -> Result<(), Failure> {
    arguments.plain([])?;
    let seed = arguments.needed_number("--seed")?;
    let count = arguments.needed_number("--count")?;
    let tries = arguments.number("--tries")?.unwrap_or(100_000);
    let picked = sample::pick(&mut open_original()?, seed, count, tries, None);
    let text: String = picked.iter().map(|one| format!("{one}\n")).collect();
    write_to(arguments.text("-o"), text.as_bytes())?;
    if picked.len() < count {
        let got = picked.len();
        return Err(format!("{tries} cases hold only {got} of {count}; try more").into());
    }
    Ok(())
}

fn compare_results(arguments: Arguments) -> Result<(), Failure> {
    let [a, b] = arguments.plain(["A", "B"])?;
    let open = |file| {
        let stream = open_stream::<Outcome>(file, RESULTS_HEAD)?;
        Ok::<_, Failure>(stream.map(move |item| item.map_err(of_file(file))))
    };
    let (mut cases, mut differing) = (0, 0);
    for line in compare(open(a)?, open(b)?) {
        cases += 1;
        if let Some(line) = line? {
            differing += 1;
            print(&format!("{line}\n"))?;
        }
    }
    match differing {
        0 => print(&format!("{cases} cases, no difference\n")),
        _ => Err(Failure {
            status: DIFFERENT,
            words: format!("{differing} of {cases} cases differ"),
        }),
    }
}

/// Puts the file's name in front of a reason.
fn of_file(file: &str) -> impl Fn(String) -> String + '_ {
    move |reason| format!("{file}: {reason}")
}

fn open_stream<T>(file: &str, head: &str) -> Result<Stream<T>, Failure>
where
    T: FromStr<Err = String> + Numbered,
{
    let unread = |error| format!("cannot read {file}: {error}");
    let opened = File::open(file).map_err(unread)?;
    Ok(Stream::open(BufReader::new(opened), head).map_err(of_file(file))?)
}

/// A file that is written line by line.
struct NewFile<'a> {
    name: &'a str,
    file: BufWriter<File>,
}

impl<'a> NewFile<'a> {
    fn create(name: &'a str, head: &str) -> Result<Self, Failure> {
        let file = File::create(name).map_err(unwritten(name))?;
        let file = BufWriter::new(file);
        let mut new = Self { name, file };
        new.line(&head)?;
        Ok(new)
    }

    fn line(&mut self, line: &dyn Display) -> Result<(), Failure> {
        writeln!(self.file, "{line}").map_err(unwritten(self.name))
    }

    fn close(mut self) -> Result<(), Failure> {
        self.file.flush().map_err(unwritten(self.name))
    }
}
