//! What programmers install: header, libraries, pkg-config file and Python module, each
//! with its example; the reader in C on whole and damaged answers; Python beside Rust.

mod common;

use std::io::Write;
use std::path::{Path, PathBuf};
use std::process::Command;

use faceting_register::answer::Pair;
use faceting_register::register::{NotLinked, LINKED};
use faceting_register::request::{ask, LONGEST};
use faceting_register::{Answer, Register, Stop};
use facetings_host::format::text;

use common::place::{Done, Place};
use common::ways::ways;
use common::{CORNER, SQUARE};

const CUBE: &str = include_str!("../../examples/cube.txt");
const PENTAGON: &str = include_str!("../../examples/pentagon.txt");
const COMPOUND: &str = include_str!("../../examples/corner-compound.txt");

fn repository() -> PathBuf {
    Path::new(env!("CARGO_MANIFEST_DIR")).join("..")
}

/// A line that goes past the capture of what tests print.
fn skipped(why: &str) {
    let _ = std::io::stderr().write_all(format!("skipped: {why}\n").as_bytes());
}

/// What a program of the system says with these words; none where it is not there.
fn tool(name: &str, words: &[&str], set: &[(&str, &str)]) -> Option<Done> {
    let mut command = Command::new(name);
    command.args(words).envs(set.iter().copied());
    match command.output() {
        Ok(output) => Some(Done::from(output)),
        Err(error) => {
            skipped(&format!("{name}: {error}"));
            None
        }
    }
}

/// The reader in C, built in a folder.
fn reader(place: &Place) -> Option<PathBuf> {
    let folder = repository();
    let [include, source] =
        ["include", "examples/reader.c"].map(|at| folder.join(at).display().to_string());
    let program = place.path("reader");
    let out = program.display().to_string();
    let words = [
        "-std=c99",
        "-O2",
        "-Wall",
        "-Wextra",
        "-Wpedantic",
        "-Werror",
        "-I",
        &include,
        &source,
        "-o",
        &out,
    ];
    assert_eq!(tool("cc", &words, &[])?.fine(), "");
    Some(program)
}

/// What the reader prints of an answer.
fn told(answer: &Answer) -> String {
    let entry = |(e, entry): (usize, &faceting_register::Entry)| {
        let pairs =
            |list: &[Pair]| -> String { list.iter().map(|(o, f)| format!(" {o}.{f}")).collect() };
        let (parts, before) = (pairs(&entry.list), pairs(&entry.before));
        let ranks: String = entry
            .figure
            .ranks
            .iter()
            .map(|rank| format!(" {}", rank.len()))
            .collect();
        format!("{e}:{parts}; before splitting{before}; elements{ranks}\n")
    };
    let entries: String = answer.entries.iter().enumerate().map(entry).collect();
    let compound = |[a, b, c]: &[u32; 3]| format!("{a} is made of {b} and {c}\n");
    let compounds: String = answer.compounds.iter().map(compound).collect();
    format!(
        "examined: {}\nfigures: {}\n{entries}{compounds}",
        answer.examined,
        answer.entries.len()
    )
}

#[test]
fn the_reader_in_c_reads_answers_and_survives_damage() {
    let place = Place::new("installed-reader");
    let (Some(program), Some(mut way)) = (reader(&place), ways().pop()) else {
        return;
    };
    for set in [CUBE, PENTAGON, CORNER, COMPOUND] {
        let job = text::encode(set).expect("the set is a job");
        let bytes = ask(way.engine.as_mut(), &job, LONGEST).expect("an answer");
        let (answer, _) = Answer::read(&bytes).expect("an answer");
        assert_eq!(place.run_on(&program, &[], &bytes).fine(), told(&answer));
        for cut in [
            0,
            1,
            3,
            4,
            9,
            bytes.len() / 3,
            bytes.len() / 2,
            bytes.len() - 4,
            bytes.len() - 1,
        ] {
            let done = place.run_on(&program, &[], &bytes[..cut]);
            assert_eq!(
                (done.status, done.error.as_str()),
                (1, "reader: the bytes are no answer\n"),
                "{cut}"
            );
        }
        let longer = [&bytes[..], &[0; 4]].concat();
        assert_eq!(place.run_on(&program, &[], &longer).status, 1);
        let mut wild = bytes.clone();
        wild[4..8].copy_from_slice(&[255; 4]);
        assert_eq!(place.run_on(&program, &[], &wild).status, 1);
    }
}

/// Everything installed below a folder; none where the library or a tool is not there.
fn installed(place: &Place) -> Option<PathBuf> {
    if !LINKED {
        skipped(&format!("what is installed: {NotLinked}"));
        return None;
    }
    let root = place.path("root");
    let (folder, to) = (
        repository().display().to_string(),
        format!("DESTDIR={}", root.display()),
    );
    let done = tool(
        "make",
        &["-s", "-C", &folder, "install", &to, "PREFIX=/usr"],
        &[],
    )?;
    assert_eq!(done.status, 0, "{done:?}");
    Some(root.join("usr"))
}

#[test]
fn programs_are_built_against_what_is_installed() {
    let place = Place::new("installed-c");
    let Some(usr) = installed(&place) else { return };
    let below = |name: &str| usr.join(name).display().to_string();
    let (place_of, root) = (
        below("lib/pkgconfig"),
        place.path("root").display().to_string(),
    );
    let set = [
        ("PKG_CONFIG_PATH", place_of.as_str()),
        ("PKG_CONFIG_SYSROOT_DIR", &root),
    ];
    let Some(done) = tool(
        "pkg-config",
        &["--cflags", "--libs", "faceting-register"],
        &set,
    ) else {
        return;
    };
    let flags = done.fine();
    let source = repository()
        .join("examples/figures.c")
        .display()
        .to_string();
    let out = place.path("figures").display().to_string();
    let mut words = vec!["-std=c99", source.as_str(), "-o", &out];
    words.extend(flags.split_whitespace());
    let Some(done) = tool("cc", &words, &[]) else {
        return;
    };
    assert_eq!(done.fine(), "");
    let library = below("lib");
    let done = tool(&out, &[], &[("LD_LIBRARY_PATH", library.as_str())]);
    assert_eq!(done.expect("it was built").fine(), "figures: 1\n0: 0.0\n");
    let version = tool("pkg-config", &["--modversion", "faceting-register"], &set);
    assert_eq!(
        version.expect("it is there").fine().trim(),
        env!("CARGO_PKG_VERSION")
    );
}

/// Prints of each job named the hash of its answer's bytes and what it lists, or its
/// refusal; then a figure's number, worked out from docs/FORMAT.md alone.
const ASKED: &str = r#"
import hashlib, struct, sys
from faceting_register import Refused, Register, job
register = Register()
for name in sys.argv[1:]:
    asked = open(name, "rb").read()
    try:
        found = register.answer(asked)
        edges = [entry.edges for entry in found.entries]
        before = [entry.before for entry in found.entries if entry.before != entry.parts]
        print(hashlib.sha256(register.answer_bytes(asked)).hexdigest(), len(found.compounds), edges)
        print(before)
    except Refused as refused:
        print("refused", refused.number)
cube = [(x, y, z) for z in (-1.0, 1.0) for y in (-1.0, 1.0) for x in (-1.0, 1.0)]
faces = [(0, 1, 3, 2), (4, 5, 7, 6), (0, 1, 5, 4), (2, 3, 7, 6), (0, 2, 6, 4), (1, 3, 7, 5)]
sides = lambda face: sorted(tuple(sorted((face[i - 1], face[i]))) for i in range(4))
numbers = [0.0] * 3 + [float(i == j) for i in range(3) for j in range(3)] + [x for p in cube for x in p]
data = bytes([4, 3, 8]) + struct.pack("<36d", *numbers)
for face in sorted(map(sides, faces)):
    data += bytes([4]) + b"".join(struct.pack("<2I", *side) for side in face)
bits = int(hashlib.sha256(data).hexdigest()[:15], 16)
digits = "".join("0123456789ABCDEFGHJKMNPQRSTVWXYZ"[bits >> 5 * i & 31] for i in reversed(range(12)))
print("-".join((digits[:4], digits[4:8], digits[8:])))
print(job([(0, 0), (1, 0), (1, 1), (0, 1)], limit=3, low=0.5, tolerance=0.001).hex())
print(job([(0, 0), (1, 0), (1, 1), (0, 1)], rule=2).hex())
"#;

/// Python on these words with what is installed; none where it is not there.
fn python(usr: &Path, words: &[&str]) -> Option<Done> {
    let module = usr.join("lib/python3/dist-packages").display().to_string();
    let library = usr.join("lib/libregister.so").display().to_string();
    let set = [
        ("PYTHONPATH", module.as_str()),
        ("FACETING_REGISTER", &library),
        ("PYTHONDONTWRITEBYTECODE", "1"),
    ];
    tool("python3", words, &set)
}

#[test]
fn the_program_in_python_runs() {
    let place = Place::new("installed-example");
    let Some(usr) = installed(&place) else { return };
    let example = repository()
        .join("examples/figures.py")
        .display()
        .to_string();
    if let Some(done) = python(&usr, &[&example]) {
        assert_eq!(done.fine(), "figures: 1\n0: 0.0\n");
    }
}

#[test]
fn python_comes_to_the_same_as_rust() {
    let place = Place::new("installed-python");
    let Some(usr) = installed(&place) else { return };
    let budget = format!("{CORNER}budget 9\n");
    let sets = [
        SQUARE,
        CUBE,
        CORNER,
        PENTAGON,
        COMPOUND,
        "points\n0 0\n",
        &budget,
    ];
    let mut register = Register::open().expect("the library is linked");
    let mut wanted = String::new();
    let mut words = vec!["-c".to_string(), ASKED.to_string()];
    for (i, set) in sets.into_iter().enumerate() {
        let job = text::encode(set).expect("the set is a job");
        place.write(&format!("{i}.job"), &job);
        words.push(place.path(&format!("{i}.job")).display().to_string());
        wanted += &match ask(&mut register, &job, LONGEST) {
            Ok(bytes) => summary(&bytes),
            Err(Stop::Refused(refusal)) => format!("refused {}\n", refusal.number()),
            Err(Stop::Broken(words)) => panic!("{words}"),
        };
    }
    assert!(wanted.contains("\n[[(0, 0), (1, 1), (2, 0)]]\n"));
    wanted += "CKBF-JN37-ED4Y\n";
    for more in ["limit 3\nmin 0.5\ntolerance 0.001\n", "rule 2\n"] {
        let job = text::encode(&format!("{SQUARE}{more}")).expect("a job");
        let hex: String = job.iter().map(|byte| format!("{byte:02x}")).collect();
        wanted += &format!("{hex}\n");
    }
    let words: Vec<&str> = words.iter().map(String::as_str).collect();
    if let Some(done) = python(&usr, &words) {
        assert_eq!(done.fine(), wanted);
    }
}

/// The tetrahedron and a square at the example's tariff, and what is refused.
const PRICED: &str = r#"
from faceting_register import MOST_EDGES, Refused, Register, job, tariff
register = Register()
corner = job([(0, 0, 0), (1, 0, 0), (0, 1, 0), (0, 0, 1)])
square = job([(0, 0), (1, 0), (1, 1), (0, 1)])
prices = [500, 500, 120, 150, 180] + [500] * (MOST_EDGES - 5)
quote = register.price(corner, 0, tariff(prices, joint=15, discount=50))
print(quote.total, quote.subtotals[:4], sum(quote.subtotals), len(quote.subtotals))
for asked, entry, costs in (
    (corner, 1, tariff(prices, 15)),
    (square, 0, tariff(prices, 15)),
    (corner, 0, tariff(prices[1:], 15)),
    (square[:-1], 0, b""),
):
    try:
        print(register.price(asked, entry, costs))
    except Refused as refused:
        print(refused)
"#;

#[test]
fn python_prices_entries() {
    let place = Place::new("installed-priced");
    let Some(usr) = installed(&place) else { return };
    if let Some(done) = python(&usr, &["-c", PRICED]) {
        let wanted = "542 [0, 0, 480, 0] 480 190\n\
            refused 21: no entry of that number\n\
            refused 20: only entries of rank 4 have a price\n\
            refused 19: a tariff of another length, or with a number above its bound\n\
            refused 8: longer or shorter than the fields say\n";
        assert_eq!(done.fine(), wanted);
    }
}

/// The plain entries of each job named, or its refusal.
const PLAIN: &str = r#"
import sys
from faceting_register import Refused, Register
register = Register()
for name in sys.argv[1:]:
    asked = open(name, "rb").read()
    try:
        print(register.plain(asked), len(register.answer(asked).entries))
    except Refused as refused:
        print(refused)
"#;

#[test]
fn python_tells_the_plain_entries() {
    let place = Place::new("installed-plain");
    let Some(usr) = installed(&place) else { return };
    let parabola: String = (0..6).map(|i| format!("{i} {}\n", i * i)).collect();
    let all_but: Vec<u32> = {
        let job = text::encode(&format!("points\n{parabola}")).expect("a job");
        let bytes = ask(&mut Register::open().expect("linked"), &job, LONGEST).expect("an answer");
        let (answer, _) = Answer::read(&bytes).expect("an answer");
        let whole = |number: &u32| answer.compounds.iter().any(|triple| triple[0] == *number);
        (0..207).filter(|number| !whole(number)).collect()
    };
    assert_eq!(all_but.len(), 197);
    let sets = [
        (CUBE.to_string(), "[0, 2] 3".to_string()),
        (format!("points\n{parabola}"), format!("{all_but:?} 207")),
        (format!("{SQUARE}max 0.5\n"), "[] 0".into()),
        (
            format!("{CORNER}budget 9\n"),
            "refused 16: the budget is used up".into(),
        ),
        (
            "points\n0 0\n".into(),
            "refused 5: fewer than 2 points, or more than 20".into(),
        ),
    ];
    let mut words = vec!["-c".to_string(), PLAIN.to_string()];
    let mut wanted = String::new();
    for (i, (set, line)) in sets.iter().enumerate() {
        let job = text::encode(set).expect("the set is a job");
        place.write(&format!("{i}.job"), &job);
        words.push(place.path(&format!("{i}.job")).display().to_string());
        wanted += &format!("{line}\n");
    }
    let words: Vec<&str> = words.iter().map(String::as_str).collect();
    if let Some(done) = python(&usr, &words) {
        assert_eq!(done.fine(), wanted);
    }
}

/// A parabola with a package, and what is refused.
const NOBLE: &str = r#"
from faceting_register import Refused, Register, job, package
register = Register()
asked = job([(i, i * i) for i in range(6)])
found = register.noble(asked, package(2, range(6), [range(6)]))
print(len(found.entries), found.examined, len(register.answer(asked).entries))
print(package(258, [3, 0], [range(4), (1, 0, 3, 2)]).hex())
for pack in (package(0, range(6), [range(6)]), b"", package(2, range(5), [range(6)])):
    try:
        print(register.noble(asked, pack))
    except Refused as refused:
        print(refused)
"#;

#[test]
fn python_answers_with_a_package() {
    let place = Place::new("installed-noble");
    let Some(usr) = installed(&place) else { return };
    if let Some(done) = python(&usr, &["-c", NOBLE]) {
        let refused = "refused 18: a package with a wrong length, number or full row\n";
        let wanted = format!(
            "197 719 207\n020004020103000001020301000302\n{}",
            refused.repeat(3)
        );
        assert_eq!(done.fine(), wanted);
    }
}

fn summary(bytes: &[u8]) -> String {
    let (answer, _) = Answer::read(bytes).expect("an answer");
    let edges: Vec<u32> = answer.summaries.iter().map(|summary| summary[1]).collect();
    let hash = facetings_host::report::hash::sha256(bytes);
    let before = answer.entries.iter().map(|entry| &entry.before);
    let split: Vec<&Vec<Pair>> = before
        .zip(&answer.entries)
        .filter_map(|(before, entry)| (*before != entry.list).then_some(before))
        .collect();
    format!("{hash} {} {edges:?}\n{split:?}\n", answer.compounds.len())
}
