//! The commands as they are called: help, exit statuses, files in and out.

mod common;

use std::path::{Path, PathBuf};
use std::process::{Command, Output};

use faceting_register::register::{NotLinked, LINKED};

use common::{oracle, CORNER, SQUARE};

/// A folder of its own for each test, removed at the end.
struct Folder(PathBuf);

impl Folder {
    fn new(name: &str) -> Self {
        let place = Path::new(env!("CARGO_TARGET_TMPDIR")).join(name);
        std::fs::create_dir_all(&place).expect("the folder for tests can be made");
        Self(place)
    }

    fn write(&self, name: &str, bytes: impl AsRef<[u8]>) {
        std::fs::write(self.0.join(name), bytes).expect("files can be written there");
    }

    fn read(&self, name: &str) -> Vec<u8> {
        std::fs::read(self.0.join(name)).expect("the command wrote the file")
    }

    fn run(&self, words: &str) -> Output {
        Command::new(env!("CARGO_BIN_EXE_facetings-host"))
            .args(words.split(' ').filter(|word| !word.is_empty()))
            .current_dir(&self.0)
            .output()
            .expect("the command can be started")
    }

    /// The exit status and the error line, which is one line or none.
    fn fails(&self, words: &str) -> (i32, String) {
        status_and_error(&self.run(words))
    }

    fn succeeds(&self, words: &str) -> String {
        let output = self.run(words);
        assert_eq!(status_and_error(&output), (0, String::new()), "{words}");
        String::from_utf8_lossy(&output.stdout).into_owned()
    }
}

fn status_and_error(output: &Output) -> (i32, String) {
    let error = String::from_utf8_lossy(&output.stderr).into_owned();
    assert!(error.lines().count() <= 1, "more than a line: {error}");
    (output.status.code().unwrap_or(-1), error.trim_end().into())
}

impl Drop for Folder {
    fn drop(&mut self) {
        let _ = std::fs::remove_dir_all(&self.0);
    }
}

const NAMES: &[&str] = &[
    "answer",
    "orbits",
    "show",
    "encode",
    "decode",
    "generate",
    "run",
    "compare",
    "pick",
    "definitions",
    "roots",
    "compare-register",
    "compare-rows",
    "compare-plain",
    "compare-noble",
    "speed",
    "load",
    "record",
    "mutants",
];

#[test]
fn every_command_has_help() {
    let folder = Folder::new("help");
    let overview = folder.succeeds("--help");
    for name in NAMES {
        let help = folder.succeeds(&format!("{name} --help"));
        assert!(help.starts_with(&format!("usage: facetings-host {name} ")));
        assert!(help.contains("3  the Rust source, or a proved library, is not there"));
        assert!(overview.contains(&format!("\n  {name} ")));
    }
}

#[test]
fn bad_usage_is_told_in_one_line_with_status_2() {
    let folder = Folder::new("usage");
    let names = NAMES.join(", ");
    let cases: [(&str, &str); 14] = [
        ("", &format!("no command; one of: {names}")),
        ("sing", &format!("'sing' is no command; one of: {names}")),
        ("show", "expected ANSWER, got 0 words; see --help"),
        ("compare a", "expected A and B, got 1 words; see --help"),
        ("generate --seed 1 -o f", "'--count' is missing; see --help"),
        (
            "generate --seed x --count 1 -o f",
            "'--seed' takes a whole number, not 'x'",
        ),
        ("generate --seed 1 --seed 1", "'--seed' was given before"),
        ("generate --seed", "'--seed' needs a value"),
        (
            "generate --seed 1 --count 1 --kind odd -o f",
            "'odd' is no kind; see generate --help",
        ),
        ("show --loud", "'--loud' is no option here; see --help"),
        ("record --seed 1", "'-o' is missing; see --help"),
        ("mutants", "'--scratch' is missing; see --help"),
        (
            "compare-register --memory old",
            "'--memory' takes kept or fresh, not 'old'",
        ),
        (
            "compare-register --library ./none.so",
            "cannot load ./none.so; its path needs a '/'",
        ),
    ];
    for (words, error) in cases {
        let expected = (2, format!("facetings-host: {error}"));
        assert_eq!(folder.fails(words), expected, "{words}");
    }
}

#[test]
fn bad_files_are_told_in_one_line_with_status_2() {
    let folder = Folder::new("files");
    folder.write("short", [1, 0, 0]);
    folder.write("binary", [255, 254]);
    folder.write("text", "rank 3\npoints\n0 0\n1");
    folder.write("results", "facetings results 1\n0 room -17 4 w1.z");
    let cases = [
        ("show absent", "cannot read absent: "),
        (
            "show short",
            "short: the words end before the number of examined lists",
        ),
        ("encode binary", "binary is not text"),
        (
            "encode text",
            "text: line 4: the point has 1 coordinates instead of 2",
        ),
        ("compare results results", "results: line 2: 'z' is no word"),
        ("decode short -o absent/text", "cannot write absent/text: "),
    ];
    for (words, error) in cases {
        let (status, said) = folder.fails(words);
        assert_eq!(status, 2, "{words}");
        assert!(
            said.starts_with(&format!("facetings-host: {error}")),
            "{said}"
        );
    }
}

#[test]
fn text_to_job_and_back() {
    let folder = Folder::new("text");
    folder.write("square", SQUARE);
    folder.succeeds("encode square -o job");
    folder.succeeds("decode job -o again");
    folder.succeeds("encode again -o second");
    assert_eq!(folder.read("job"), folder.read("second"));
}

#[test]
fn generated_cases_do_not_depend_on_where_they_begin() {
    let folder = Folder::new("generate");
    let table = folder.succeeds("generate --seed 4 --count 30 -o all");
    let times = table
        .lines()
        .filter_map(|line| line.split_whitespace().next());
    let sum: usize = times.filter_map(|times| times.parse::<usize>().ok()).sum();
    assert_eq!(sum, 30);
    folder.succeeds("generate --seed 4 --count 10 --first 20 -o tail");
    let lines = |name| String::from_utf8_lossy(&folder.read(name)).into_owned();
    let (all, tail) = (lines("all"), lines("tail"));
    assert_eq!(
        all.lines().skip(21).collect::<Vec<_>>(),
        tail.lines().skip(1).collect::<Vec<_>>()
    );
}

#[test]
fn without_the_source_the_commands_that_need_it_stop_with_status_3() {
    if cfg!(has_miratope) {
        return;
    }
    let folder = Folder::new("absent");
    folder.write("job", "");
    folder.write("cases", "facetings cases 1\n");
    for words in [
        "answer job",
        "run cases -o results",
        "pick --seed 1 --count 1",
    ] {
        let (status, said) = folder.fails(words);
        assert_eq!(status, 3, "{words}");
        assert!(said.contains("the Rust source is not there"), "{said}");
    }
}

#[test]
fn answers_and_refusals() {
    if oracle().is_none() {
        return;
    }
    let folder = Folder::new("answer");
    folder.write("corner", CORNER);
    folder.succeeds("encode corner -o job");
    folder.succeeds("answer job -o answer");
    let shown = folder.succeeds("show answer");
    assert!(shown.starts_with("examined 27 lists\n"));
    let length = folder.read("answer").len();
    let refused =
        |number: u8, words: &str| (1, format!("facetings-host: refused {number}: {words}"));
    let short = format!("answer job --room {}", length - 1);
    assert_eq!(
        folder.fails(&short),
        refused(17, "the answer buffer is too short")
    );
    let small = folder.fails("answer job --workspace 4194303");
    assert_eq!(
        small,
        refused(12, "the workspace is too short for the rank")
    );
}

#[test]
fn runs_repeat_themselves_and_differences_are_told() {
    if oracle().is_none() {
        return;
    }
    let folder = Folder::new("run");
    folder.succeeds("generate --seed 4 --count 60 -o cases");
    let table = folder.succeeds("run cases -o one");
    assert!(table.starts_with("60 cases\n"));
    folder.succeeds("run cases -o two");
    assert_eq!(folder.read("one"), folder.read("two"));
    assert_eq!(
        folder.succeeds("compare one two"),
        "60 cases, no difference\n"
    );
    let text = String::from_utf8_lossy(&folder.read("one")).into_owned();
    let lines: Vec<&str> = text.lines().collect();
    folder.write("fewer", lines[..60].join("\n"));
    let told = folder.fails("compare one fewer");
    assert_eq!(told, (1, "facetings-host: 1 of 60 cases differ".into()));
}

#[test]
fn definitions_ask_for_their_crate_and_an_empty_folder() {
    let folder = Folder::new("definitions");
    let words = "definitions --seed 1 --count 2 --scratch there";
    let (status, error) = folder.fails(words);
    assert_eq!(status, 2);
    assert!(error.ends_with("crates/definitions is not the crate of definitions"));
    std::fs::create_dir_all(folder.0.join("d/specs")).expect("the folder can be made");
    folder.write("d/specs/Examples.antt", "");
    folder.write("full", "");
    let (status, error) = folder.fails("definitions --seed 1 --count 2 --crate d --scratch .");
    assert_eq!(status, 2);
    assert!(error.ends_with(". is not empty"));
}

#[test]
fn orbits_are_printed_with_their_first_sets() {
    if oracle().is_none() {
        return;
    }
    let folder = Folder::new("orbits");
    folder.write("square.txt", SQUARE);
    folder.succeeds("encode square.txt -o square");
    let lines = folder.succeeds("orbits square");
    assert!(
        lines.starts_with("job 0: 6 orbits\n1: 0 1\n1: 0 2\n"),
        "{lines}"
    );
    assert!(lines.ends_with("inner 5: 0 1\n"), "{lines}");
    folder.write("short", [1, 2, 3]);
    assert_eq!(folder.succeeds("orbits short"), "job 0: refused 1\n");
    folder.write(
        "jobs.txt",
        format!("job a\n{SQUARE}\njob b\nbytes 010203\n"),
    );
    folder.succeeds("encode jobs.txt -o jobs");
    let both = folder.succeeds("orbits --jobs jobs");
    assert_eq!(both, lines + "job 1: refused 1\n");
}

/// Commands that need the register, each with a word that it then prints.
const WITH_REGISTER: [(&str, &str); 4] = [
    ("compare-register --count 30", "no difference"),
    (
        "compare-register --count 10 --memory fresh",
        "no difference",
    ),
    (
        "speed --only square --seconds 0 --cases 0",
        "square, 8 rows",
    ),
    ("load --count 50 --large 2 --only square", "bytes of stack"),
];

#[test]
fn commands_on_the_register_run_or_say_that_it_is_not_linked() {
    let folder = Folder::new("register");
    if oracle().is_none() {
        return;
    }
    for (words, printed) in WITH_REGISTER {
        if LINKED {
            // Not the status: how long a run takes here is not this test's concern.
            let output = folder.run(words).stdout;
            let text = String::from_utf8_lossy(&output);
            assert!(text.contains(printed), "{words}: {text}");
        } else {
            let expected = (3, format!("facetings-host: {NotLinked}"));
            assert_eq!(folder.fails(words), expected, "{words}");
        }
    }
}
