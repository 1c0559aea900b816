//! What programmers are given: the pages on bytes, the header, and a program each
//! in C and Rust.

mod common;

use std::collections::BTreeSet;
use std::io::Write;
use std::path::{Path, PathBuf};
use std::process::Command;

use faceting_register::register::{NotLinked, LINKED};
use faceting_register::request::{ask, LONGEST};
use faceting_register::{Answer, Entry, Refusal};
use facetings_host::format::text;

use common::format::{entry_lists, refusal_numbers, worked_example};
use common::place::{Done, Place};
use common::ways::{ways, Way};
use common::WORKSPACE;

const HEADER: &str = include_str!("../../include/register.h");
const SQUARE: &str = include_str!("../../examples/square.txt");
const COMPOUND: &str = include_str!("../../examples/corner-compound.txt");

/// What both programs print.
const PRINTED: &str = "figures: 1\n0: 0.0\n";

/// What the row of three jobs prints; its first answer has a length, whatever it is.
const ROW_REFUSED: &str = "bytes\nrefused 1\nrefused 2\n";

fn repository() -> PathBuf {
    Path::new(env!("CARGO_MANIFEST_DIR")).join("..")
}

#[test]
fn the_worked_example_is_what_an_engine_answers() {
    let (job, answer) = worked_example();
    assert_eq!(text::encode(SQUARE).as_ref(), Ok(&job));
    for mut way in ways() {
        let found = ask(way.engine.as_mut(), &job, LONGEST);
        assert_eq!(found.as_ref(), Ok(&answer), "{}", way.name);
    }
}

/// The job with a compound facet has the lists of the page, in its bytes too, and is
/// refused with 17 in a buffer that is one word short.
#[test]
fn the_lists_of_the_page_are_what_an_engine_answers() {
    let job = text::encode(COMPOUND).expect("the example is a job");
    for mut way in ways() {
        let bytes = ask(way.engine.as_mut(), &job, LONGEST).expect("an answer");
        let (answer, _) = Answer::read(&bytes).expect("an answer");
        let lists = |entry: &Entry| [entry.list.clone(), entry.before.clone()];
        let lists: Vec<_> = answer.entries.iter().map(lists).collect();
        assert_eq!(lists, entry_lists(), "{}", way.name);
        let told = [4, 0, 0, 1, 0, 1, 2, 2, 0, 3, 0, 0, 1, 1, 2, 0_u32];
        let told: Vec<u8> = told.iter().flat_map(|word| word.to_le_bytes()).collect();
        assert!(bytes.windows(told.len()).any(|part| part == told));
        one_word_short(&mut way, &job, &bytes);
        let segment = text::encode("rank 2\npoints\n0\n1\n").expect("a job");
        let bytes = ask(way.engine.as_mut(), &segment, LONGEST).expect("an answer");
        let (answer, _) = Answer::read(&bytes).expect("an answer");
        assert_eq!(answer.entries[0].before, answer.entries[0].list);
        one_word_short(&mut way, &segment, &bytes);
    }
}

fn one_word_short(way: &mut Way, job: &[u8], right: &[u8]) {
    for (room, code) in [
        (right.len(), right.len() as i64),
        (right.len() - 4, Refusal::Room.code()),
    ] {
        let mut buffer = vec![0xa5; room];
        assert_eq!(way.engine.answer(job, WORKSPACE, &mut buffer), code);
        match code < 0 {
            true => assert!(buffer.iter().all(|byte| *byte == 0), "{}", way.name),
            false => assert_eq!(buffer, right, "{}", way.name),
        }
    }
}

/// A job's refusals in the order in which they are looked for: those of a tolerance
/// and of a rule directly behind that of a number, that of a package behind the rows'.
fn refusals() -> Vec<Refusal> {
    let mut all: Vec<Refusal> = Refusal::all().collect();
    all.sort_by_key(|refusal| match refusal {
        Refusal::Tolerance => (Refusal::Number.number(), 1),
        Refusal::Rule => (Refusal::Number.number(), 2),
        Refusal::Package => (Refusal::Permutation.number(), 1),
        other => (other.number(), 0),
    });
    all
}

/// What the header has behind those of a job: the refusals of a row.
const OF_A_ROW: [&str; 2] = ["    REGISTER_ROW = 26", "    REGISTER_RECORDS = 27"];

#[test]
fn page_and_header_have_every_refusal() {
    let numbers: Vec<u8> = refusals().into_iter().map(Refusal::number).collect();
    assert_eq!(numbers.len(), 20);
    assert_eq!(refusal_numbers(), numbers);
    let named = |refusal| format!("    {} = {}", constant(refusal), refusal.number());
    let of_a_job = refusals().into_iter().map(named);
    let mut rest = HEADER;
    for constant in of_a_job.chain(OF_A_ROW.map(String::from)) {
        let (_, behind) = rest.split_once(&constant).expect(&constant);
        assert!(behind.starts_with([',', ' ', '\n']), "{constant}");
        rest = behind;
    }
    assert_eq!(rest.matches("\n    REGISTER_").count(), 0);
}

/// The header's name for it: PointCount is REGISTER_POINT_COUNT.
fn constant(refusal: Refusal) -> String {
    let mut name = String::from("REGISTER");
    for letter in format!("{refusal:?}").chars() {
        if letter.is_ascii_uppercase() {
            name.push('_');
        }
        name.push(letter.to_ascii_uppercase());
    }
    name
}

/// A function in the register's place that knows the worked example alone.
fn stand_in() -> String {
    let (job, answer) = worked_example();
    let list = |bytes: &[u8]| {
        let numbers: Vec<String> = bytes.iter().map(u8::to_string).collect();
        numbers.join(",")
    };
    format!(
        "#include \"register.h\"
        #include <string.h>
        static const uint8_t known[] = {{{}}}, right[] = {{{}}};
        int64_t register_answer(const uint8_t *job, size_t job_length,
            uint8_t *workspace, size_t workspace_length,
            uint8_t *answer, size_t answer_length)
        {{
            memset(answer, 0, answer_length);
            if (job_length != sizeof known || memcmp(job, known, sizeof known)) return -REGISTER_MARK;
            if (workspace_length < REGISTER_WORKSPACE_RANK_3) return -REGISTER_WORKSPACE;
            memset(workspace, 165, workspace_length);
            if (answer_length < sizeof right) return -REGISTER_ROOM;
            memcpy(answer, right, sizeof right);
            return sizeof right;
        }}\n",
        list(&job),
        list(&answer)
    )
}

/// The C program built with that in the library's place, and what it prints; none
/// where there is no C compiler.
fn run_c(place: &Place, library: &Path) -> Option<Done> {
    run_program(place, "examples/figures.c", library)
}

fn run_program(place: &Place, program: &str, library: &Path) -> Option<Done> {
    let folder = repository();
    let mut compiler = Command::new("cc");
    compiler.args([
        "-std=c99",
        "-O2",
        "-Wall",
        "-Wextra",
        "-Wpedantic",
        "-Werror",
        "-I",
    ]);
    compiler.args([&folder.join("include"), &folder.join(program), library]);
    match compiler.arg("-o").arg(place.path("figures")).output() {
        Ok(output) => {
            let error = String::from_utf8_lossy(&output.stderr);
            assert!(output.status.success(), "{error}");
            Some(place.run(place.path("figures"), &[]))
        }
        Err(error) => {
            tell(&format!("skipped, the program in C: cc: {error}"));
            None
        }
    }
}

/// A line that goes past the capture of what tests print.
fn tell(line: &str) {
    let _ = std::io::stderr().write_all(format!("{line}\n").as_bytes());
}

#[test]
fn the_program_in_c_reads_the_worked_example() {
    let place = Place::new("c-stand-in");
    place.write("stand_in.c", stand_in());
    if let Some(done) = run_c(&place, &place.path("stand_in.c")) {
        assert_eq!(done.fine(), PRINTED);
    }
}

#[test]
fn the_program_in_c_tells_a_refusal() {
    let place = Place::new("c-refused");
    let refusing = stand_in().replace("job_length != sizeof known", "job_length > 0");
    place.write("stand_in.c", refusing);
    if let Some(done) = run_c(&place, &place.path("stand_in.c")) {
        assert_eq!(done.complaint(1), "figures: refused 1");
    }
}

#[test]
fn the_program_in_c_runs_with_the_library() {
    if !LINKED {
        tell(&format!(
            "skipped, the program in C with the library: {NotLinked}"
        ));
        return;
    }
    let place = Place::new("c-library");
    let library = repository().join("target/staticlib/libregister.a");
    if let Some(done) = run_c(&place, &library) {
        assert_eq!(done.fine(), PRINTED);
    }
}

#[test]
fn the_row_in_c_runs_with_the_library() {
    if !LINKED {
        tell(&format!(
            "skipped, the row in C with the library: {NotLinked}"
        ));
        return;
    }
    let place = Place::new("c-row");
    let library = repository().join("target/staticlib/libregister.a");
    if let Some(done) = run_program(&place, "examples/row.c", &library) {
        let printed = done.fine();
        assert!(
            printed.starts_with("answered, ") && printed.ends_with(ROW_REFUSED),
            "{printed}"
        );
    }
}

/// Also where there is no whole C library: `memmove`, say, is not asked for.
#[test]
fn the_library_needs_two_functions_from_outside() {
    let library = repository().join("target/staticlib/libregister.a");
    if !library.is_file() {
        tell("skipped, what the library needs: it is not there (./library register)");
        return;
    }
    let listed = match Command::new("nm").arg("-u").arg(&library).output() {
        Ok(output) => String::from_utf8(output.stdout).expect("names"),
        Err(error) => {
            tell(&format!("skipped, what the library needs: nm: {error}"));
            return;
        }
    };
    let names = listed
        .lines()
        .filter_map(|line| line.trim().strip_prefix("U "));
    assert_eq!(
        names.collect::<BTreeSet<_>>(),
        BTreeSet::from(["memcpy", "memset"])
    );
}

#[test]
fn the_program_in_rust_runs() {
    let target = Path::new(env!("CARGO_TARGET_TMPDIR")).with_file_name("");
    let built = Command::new(env!("CARGO"))
        .args(["build", "--offline", "--quiet", "--example", "figures"])
        .arg("--target-dir")
        .arg(&target)
        .current_dir(env!("CARGO_MANIFEST_DIR"))
        .output()
        .expect("cargo can be started");
    let error = String::from_utf8_lossy(&built.stderr);
    assert!(built.status.success(), "{error}");
    let program = target.join("debug/examples/figures");
    let done = Place::new("rust-program").run(program, &[]);
    match LINKED {
        true => assert_eq!(done.fine(), PRINTED),
        false => assert_eq!(done.complaint(1), format!("figures: {NotLinked}")),
    }
}

/// A crate of somebody else's that leans on the wrapper and on nothing else of host/.
#[test]
fn another_crate_can_lean_on_the_wrapper_alone() {
    let place = Place::new("stranger");
    let wrapper = Path::new(env!("CARGO_MANIFEST_DIR")).join("wrapper");
    let manifest = format!(
        "[package]\nname = \"stranger\"\nversion = \"0.1.0\"\nedition = \"2021\"\n\n[dependencies]\nfaceting-register = {{ path = {wrapper:?} }}\n\n[workspace]\n"
    );
    place.write("Cargo.toml", manifest);
    place.write("src/main.rs", include_str!("../../examples/figures.rs"));
    let built = Command::new(env!("CARGO"))
        .args(["build", "--offline", "--quiet"])
        .arg("--target-dir")
        .arg(place.path("target"))
        .current_dir(&place.0)
        .output()
        .expect("cargo can be started");
    let error = String::from_utf8_lossy(&built.stderr);
    assert!(built.status.success(), "{error}");
    let done = place.run(place.path("target/debug/stranger"), &[]);
    match LINKED {
        true => assert_eq!(done.fine(), PRINTED),
        false => assert_eq!(done.complaint(1), format!("figures: {NotLinked}")),
    }
}
