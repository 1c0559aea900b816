//! The script ./register with stand-ins for rt and cargo: what it builds and when,
//! what it says, what it does by itself, and that it passes words and status on.

mod common;

use std::fs::{self, File};
use std::io::{BufRead, BufReader};
use std::os::unix::fs::{symlink, PermissionsExt};
use std::path::PathBuf;
use std::process::{Child, Command, Stdio};
use std::time::{Duration, SystemTime};

use common::place::{names, Done, Place};

const SCRIPT: &str = include_str!("../../register");
const LIBRARY: &str = include_str!("../../library");
const HELP: &str = include_str!("../help/register.txt");
const TEXT_FORM: &str = include_str!("../help/text.txt");
const COMMAND: &str = env!("CARGO_BIN_EXE_register");

/// Tools of the system that the script and the stand-ins use.
const TOOLS: [&str; 18] = [
    "sh", "awk", "cat", "chmod", "cp", "date", "dirname", "env", "find", "flock", "head", "mkdir",
    "mv", "readlink", "rm", "sed", "sleep", "tail",
];

/// The crate of the exports leans on two others; a fourth has nothing to do with it.
const CRATES: &str =
    "# Crates.\na:\nregister: a # leans on it\nregister_c staticlib: register\nother: a register\n";

/// Each stand-in notes that it was called, that of rt in which crate. The command prints
/// where it was started and its words, and ends with a status of its own.
const RT: &str = "#!/bin/sh\nat=../../..\necho rt $* in ${PWD##*/} >>$at/called\nwhile [ -f $at/slow ]; do sleep 0.05; done\n[ ! -f $at/broken ] || { echo wrong; exit 1; }\necho 'fn a::f: proved'\necho 'fn a::g: proved'\necho 'logic=proved functions=2 sum=0' >&2\nmkdir -p out\necho made >out/libregister_c.a\n";
const CARGO: &str = "#!/bin/sh\necho cargo $1 >>../../called\nmkdir -p target/release\ncat >target/release/register <<'END'\n#!/bin/sh\npwd\nprintf '[%s]\\n' \"$@\"\nexit 7\nEND\nchmod +x target/release/register\n";

/// A repository with the script and nothing built, and a folder of tools.
fn repository(name: &str, tools: &[(&str, &str)]) -> Place {
    let place = Place::new(&format!("script-{name}"));
    for (file, text) in [
        ("crates.txt", CRATES),
        ("crates/a/src/lib.rt", ""),
        ("crates/a/must-fail/x.edit", ""),
        ("crates/register_c/src/lib.rt", ""),
        ("host/src/lib.rs", ""),
        ("host/wrapper/src/lib.rs", ""),
        ("host/build.rs", ""),
        ("host/Cargo.toml", include_str!("../Cargo.toml")),
        ("host/help/register.txt", HELP),
        ("host/help/text.txt", TEXT_FORM),
    ] {
        place.write(&format!("my repository/{file}"), text);
    }
    executable(&place, "my repository/register", SCRIPT);
    executable(&place, "my repository/library", LIBRARY);
    place.write("tools/a b.txt", "");
    for tool in TOOLS {
        symlink(found(tool), place.path("tools").join(tool)).expect("links can be made");
    }
    for (tool, text) in tools {
        executable(&place, &format!("tools/{tool}"), text);
    }
    place
}

fn executable(place: &Place, name: &str, text: &str) {
    place.write(name, text);
    let mode = fs::Permissions::from_mode(0o755);
    fs::set_permissions(place.path(name), mode).expect("the mode can be set");
}

/// Where the system has a tool.
fn found(tool: &str) -> PathBuf {
    let path = std::env::var_os("PATH").unwrap_or_default();
    std::env::split_paths(&path)
        .map(|folder| folder.join(tool))
        .find(|file| file.is_file())
        .unwrap_or_else(|| panic!("{tool} is not on the path"))
}

fn script(place: &Place, name: &str, words: &[&str]) -> Command {
    let mut script = Command::new(place.path(name));
    script
        .args(words)
        .current_dir(place.path("tools"))
        .env("PATH", place.path("tools"))
        .env_remove("MIRATOPE_SRC")
        .stdout(Stdio::piped())
        .stderr(Stdio::piped());
    script
}

fn run_by(place: &Place, name: &str, words: &[&str]) -> Done {
    let output = script(place, name, words).output();
    Done::from(output.expect("the script can be started"))
}

fn run(place: &Place, words: &[&str]) -> Done {
    run_by(place, "my repository/register", words)
}

/// What was built since this was asked last.
fn built(place: &Place) -> String {
    let log = place.path("called");
    let text = fs::read_to_string(&log).unwrap_or_default();
    let _ = fs::remove_file(log);
    text
}

/// Makes a file newer than everything built so far.
fn touch(place: &Place, name: &str) {
    std::thread::sleep(Duration::from_millis(30));
    let file = File::options().write(true).open(place.path(name));
    let set = file.and_then(|file| file.set_modified(SystemTime::now()));
    set.expect("the time can be set");
}

const BOTH: &str = "rt lib in register_c\ncargo build\n";

#[test]
fn builds_what_is_missing_and_passes_words_and_status_on() {
    let place = repository("fresh", &[("rt", RT), ("cargo", CARGO)]);
    let words = ["a b.txt", "--json"];
    let first = run(&place, &words);
    assert_eq!(built(&place), BOTH);
    let lines: Vec<&str> = first.error.lines().collect();
    assert_eq!(lines.len(), 6, "{}", first.error);
    assert!(lines.iter().all(|line| line.starts_with("register: ")));
    assert!(lines[1].contains("building the proved library (./library register)"));
    assert_eq!(
        lines[2],
        "register: 1 of at most 3 crates proved: a (functions: 2)"
    );
    assert!(lines[3].starts_with("register: built in ") && lines[3].ends_with(" s"));
    let here = place.path("tools");
    let here = fs::canonicalize(here).expect("the folder is there");
    let expected = format!("{}\n[a b.txt]\n[--json]\n", here.display());
    assert_eq!((first.status, first.text()), (7, expected.clone()));
    let second = run(&place, &words);
    assert_eq!((second.error.as_str(), second.text()), ("", expected));
    assert_eq!(built(&place), "");
}

#[test]
fn builds_again_what_is_older_than_its_sources() {
    let place = repository("older", &[("rt", RT), ("cargo", CARGO)]);
    let after = |name: &str| {
        touch(&place, &format!("my repository/{name}"));
        run(&place, &["a b.txt"]);
        built(&place)
    };
    run(&place, &["a b.txt"]);
    assert_eq!(built(&place), BOTH);
    assert_eq!(after("crates/a/src/lib.rt"), BOTH);
    assert_eq!(after("crates.txt"), BOTH);
    assert_eq!(after("host/src/lib.rs"), "cargo build\n");
    assert_eq!(after("host/wrapper/src/lib.rs"), "cargo build\n");
    assert_eq!(after("crates/a/must-fail/x.edit"), "");
    fs::remove_file(place.path("my repository/target/staticlib/libregister.a")).expect("built");
    run(&place, &["a b.txt"]);
    assert_eq!(built(&place), BOTH);
}

#[test]
fn the_original_and_symmetries_do_without_the_library() {
    for word in ["--original", "--symmetry"] {
        let place = repository("without", &[("cargo", CARGO)]);
        assert_eq!(run(&place, &[word, "a b.txt"]).status, 7);
        assert_eq!(built(&place), "cargo build\n");
    }
}

#[test]
fn help_and_version_need_no_tool_and_are_the_commands_own() {
    let place = repository("help", &[]);
    for words in [&["--help"][..], &["-h"], &["--json", "a b.txt", "--help"]] {
        assert_eq!(run(&place, words).fine(), format!("{HELP}{TEXT_FORM}"));
    }
    for word in ["--help", "--version"] {
        let own = place.run(COMMAND, &[word]).fine();
        assert_eq!(run(&place, &[word]).fine(), own);
    }
    assert!(run(&place, &["--version"]).text().starts_with("register "));
}

#[test]
fn every_option_of_the_help_is_one_of_the_command() {
    let place = Place::new("script-options");
    let lines = HELP.lines().filter_map(|line| line.strip_prefix("  -"));
    let options: Vec<String> = lines
        .map(|line| format!("-{}", line.split(' ').next().unwrap_or("")))
        .collect();
    assert!(options.len() >= 8, "{options:?}");
    for option in options {
        let error = place.run(COMMAND, &[&option]).error;
        assert!(!error.contains("is no option"), "{option}: {error}");
    }
}

#[test]
fn words_are_checked_before_anything_is_built_as_the_command_checks_them() {
    let place = repository("words", &[("rt", RT), ("cargo", CARGO)]);
    let wrong: [&[&str]; 25] = [
        &[],
        &["--json"],
        &["--jsn", "a b.txt"],
        &["--", "--jsn"],
        &["a b.txt", "-o"],
        &["-o", "x", "-o", "y", "a b.txt"],
        &["--json", "--raw", "a b.txt"],
        &["--room", "x", "a b.txt"],
        &["a b.txt", "--room"],
        &["--symmetry", "--json", "a b.txt"],
        &["--raw", "--symmetry", "a b.txt"],
        &["a b.txt", "-o", "x", "--symmetry"],
        &["--off", "a b.txt"],
        &["--off", "--json", "a b.txt"],
        &["a b.txt", "--svg"],
        &["--html", "a b.txt"],
        &["--csv", "--html", "a b.txt"],
        &["--jobs", "x", "a b.txt"],
        &["--plain", "--json", "a b.txt"],
        &["a b.txt", "--plain", "-o", "x"],
        &["--original", "--plain", "a b.txt"],
        &["--noble", "p", "--csv", "a b.txt"],
        &["--noble", "p", "--plain", "a b.txt"],
        &["--noble", "p", "--noble", "p", "a b.txt"],
        &["a b.txt", "--noble"],
    ];
    for words in wrong {
        let done = run(&place, words);
        let own = place.run(COMMAND, words);
        match words {
            ["--", _] => assert!(done.complaint(2).contains("--jsn: cannot be read: ")),
            _ => assert_eq!(done.complaint(2), own.complaint(2), "{words:?}"),
        }
    }
    assert_eq!(built(&place), "");
}

#[test]
fn nothing_is_built_where_no_word_names_a_file() {
    let place = repository("unnamed", &[("rt", RT), ("cargo", CARGO)]);
    for words in [&["c.txt", "--raw"][..], &["-o", "a b.txt", "c.txt"]] {
        let done = run(&place, words);
        assert!(done.complaint(2).contains("c.txt: cannot be read: "));
    }
    assert_eq!(built(&place), "");
    for words in [&["-"][..], &["."], &["c.txt", "a b.txt"]] {
        assert_eq!(run(&place, words).status, 7);
    }
}

#[test]
fn quiet_says_nothing_of_a_build_that_succeeds() {
    let place = repository("quiet", &[("rt", RT), ("cargo", CARGO)]);
    let done = run(&place, &["a b.txt", "--quiet"]);
    assert_eq!((done.status, done.error.as_str()), (7, ""));
    assert_eq!(built(&place), BOTH);
}

#[test]
fn a_link_stands_for_the_script() {
    let place = repository("link", &[("rt", RT), ("cargo", CARGO)]);
    let link = |to: &str, name: &str| symlink(to, place.path(name)).expect("links can be made");
    fs::create_dir(place.path("bin")).expect("folders can be made");
    link("../my repository/register", "bin/near");
    link("near", "bin/far");
    assert_eq!(run_by(&place, "bin/far", &["a b.txt"]).status, 7);
    assert_eq!(built(&place), BOTH);
    assert_eq!(names(&place.path("bin")), ["far", "near"]);
    assert_eq!(run(&place, &["a b.txt"]).error, "");
}

/// A run whose build goes on until the file `slow` is taken away.
fn building(place: &Place) -> Child {
    place.write("slow", "");
    let child = script(place, "my repository/register", &["a b.txt"]).spawn();
    while !place
        .path("my repository/target/register.built.log")
        .exists()
    {
        std::thread::sleep(Duration::from_millis(10));
    }
    child.expect("the script can be started")
}

fn go_on(place: &Place) {
    fs::remove_file(place.path("slow")).expect("it was written");
}

fn ended(child: Child) -> Done {
    Done::from(child.wait_with_output().expect("it ends"))
}

#[test]
fn of_two_runs_at_once_one_waits_for_the_other() {
    let place = repository("twice", &[("rt", RT), ("cargo", CARGO)]);
    let first = building(&place);
    let second = script(&place, "my repository/register", &["a b.txt"]).spawn();
    let mut second = second.expect("the script can be started");
    let mut said = String::new();
    let pipe = second.stderr.as_mut().expect("it has a pipe");
    let read = BufReader::new(pipe).read_line(&mut said);
    read.expect("it says something");
    assert_eq!(
        said,
        "register: another run is building; this one waits for it\n"
    );
    go_on(&place);
    assert_eq!(ended(first).status, 7);
    let second = ended(second);
    assert_eq!((second.status, second.error.as_str()), (7, ""));
    assert_eq!(built(&place), BOTH);
}

#[test]
fn a_missing_tool_is_one_line_with_status_3() {
    let place = repository("no-rt", &[("cargo", CARGO)]);
    let done = run(&place, &["a b.txt"]);
    assert!(done
        .complaint(3)
        .starts_with("register: 'rt' is not on the path; "));
    let place = repository("no-flock", &[("rt", RT), ("cargo", CARGO)]);
    fs::remove_file(place.path("tools/flock")).expect("it was linked");
    let done = run(&place, &["a b.txt"]);
    assert!(done
        .complaint(3)
        .starts_with("register: 'flock' is not on the path; "));
    let place = repository("no-cargo", &[("rt", RT)]);
    let done = run(&place, &["--original", "a b.txt"]);
    assert!(done
        .complaint(3)
        .starts_with("register: 'cargo' is not on the path; "));
}

#[test]
fn a_build_that_fails_leaves_nothing_behind_and_is_begun_again() {
    let place = repository("fails", &[("rt", RT), ("cargo", CARGO)]);
    place.write("broken", "");
    let done = run(&place, &["a b.txt"]);
    assert_eq!((done.status, done.text().as_str()), (3, ""));
    assert!(done
        .error
        .contains("\nwrong\nregister: the proved library could not be built"));
    assert_eq!(names(&place.path("my repository/target")), [""; 0]);
    fs::remove_file(place.path("broken")).expect("it was written");
    built(&place);
    assert_eq!(run(&place, &["a b.txt"]).status, 7);
    assert_eq!(built(&place), BOTH);
    let left = names(&place.path("my repository/target"));
    assert_eq!(left, ["register.built", "staticlib"]);
}

#[test]
fn a_build_that_is_cut_short_is_begun_again() {
    let place = repository("cut", &[("rt", RT), ("cargo", CARGO)]);
    let child = building(&place);
    let end = format!("kill -TERM {}", child.id());
    let sent = Command::new("sh").args(["-c", &end]).status();
    assert!(sent.expect("the shell is there").success());
    go_on(&place);
    let done = ended(child);
    assert_eq!((done.status, done.text().as_str()), (130, ""));
    let left = names(&place.path("my repository/target"));
    assert!(left.iter().all(|name| name == "staticlib"), "{left:?}");
    built(&place);
    assert_eq!(run(&place, &["a b.txt"]).status, 7);
    assert_eq!(built(&place), BOTH);
}
