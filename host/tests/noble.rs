//! Jobs with packages: beside the original where the register has the call; the oracle
//! and the command by themselves.

mod common;

use std::path::Path;

use faceting_register::noble::ask_noble;
use faceting_register::request::LONGEST;
use faceting_register::{Answer, Engine, Job, Package, Refusal, Register, Stop};
use facetings_host::compare::noble::{compare, compare_generated, gives, kept, Met};
use facetings_host::engines::oracle::Oracle;
use facetings_host::format::package;

use common::json::Value;
use common::place::Place;
use common::ways::ways;
use common::{job, oracle, CORNER, SQUARE, WORKSPACE};

const COMMAND: &str = env!("CARGO_BIN_EXE_register");

/// Generated cases that every run of the tests compares.
const COUNT: usize = 2_000;

/// The call that is compared: the register's, or the original's own where no library is
/// linked, so that what is worked out a second time is still looked at.
fn engine() -> Option<Box<dyn Engine>> {
    match Register::open() {
        Ok(register) => Some(Box::new(register)),
        Err(absent) => {
            println!("the original in the register's place: {absent}");
            Some(Box::new(oracle()?))
        }
    }
}

fn both() -> Option<(Box<dyn Engine>, Oracle)> {
    Some((engine()?, oracle()?))
}

/// A package of this text.
fn pack(text: &str) -> Vec<u8> {
    package::read(text.as_bytes()).unwrap_or_else(|words| panic!("{words} in:\n{text}"))
}

/// Whole lists of numbers from 0 up.
fn up_to(count: usize) -> String {
    let numbers: Vec<String> = (0..count).map(|v| v.to_string()).collect();
    numbers.join(" ")
}

/// The answer to a job with a package, after all buffers were tried.
fn answered(engine: &mut dyn Engine, oracle: &Oracle, job: &[u8], package: &[u8]) -> Answer {
    compare(
        engine,
        oracle,
        (job, package, WORKSPACE),
        &mut Met::default(),
    )
    .unwrap_or_else(|words| panic!("{words}"));
    let bytes = ask_noble(engine, job, package, LONGEST).expect("an answer");
    Answer::read(&bytes).expect("an answer").0
}

/// The sets of the orbits that an answer has.
fn sets(answer: &Answer) -> Vec<Vec<u32>> {
    let edge = |orbit: &Vec<faceting_register::Figure>| orbit[0].ranks[2][0].clone();
    answer.facets.iter().map(edge).collect()
}

const TRIANGLE: &str = "points\n0 0\n1 0\n0 1\n";

/// The tally that counts is the one that the key is marked with when all orbits are
/// gone through, and not the one that its orbit was added to [17.6].
#[test]
fn the_latest_mark_decides() {
    let Some((mut engine, oracle)) = both() else {
        return;
    };
    let package = pack("count 2\nglobal 0 1 2\nrows\n0 1 2\n1 2 0\n");
    let found = answered(engine.as_mut(), &oracle, &job(TRIANGLE), &package);
    assert_eq!(sets(&found), [[1, 2]]);
    let package = pack("count 2\nglobal 0 1 2\nrows\n0 1 2\n");
    let found = answered(engine.as_mut(), &oracle, &job(TRIANGLE), &package);
    assert_eq!((sets(&found).len(), found.entries.len()), (3, 1));
}

/// Orbits are dropped before anything is made of them, so that no list is examined in
/// an inner call; but 13 has counted them.
#[test]
fn dropped_orbits_have_no_inner_call_and_13_counts_them() {
    let Some((mut engine, mut oracle)) = both() else {
        return;
    };
    let package = pack("count 1\nglobal 0 1 2 3\nrows\n0 1 2 3\n");
    let found = answered(engine.as_mut(), &oracle, &job(CORNER), &package);
    assert_eq!((found.examined, found.counts.len()), (0, 0));
    let package = pack("count 2\nglobal 0 1 2 3\nrows\n0 1 2 3\n");
    let found = answered(engine.as_mut(), &oracle, &job(CORNER), &package);
    assert_eq!(found.counts, [1, 1, 1, 1]);
    oracle.bounds.orbits = 3;
    let dropped = pack("count 1\nglobal 0 1 2 3\nrows\n0 1 2 3\n");
    let judged = oracle.judge_noble(&job(CORNER), &dropped, WORKSPACE);
    assert_eq!(judged.result.err(), Some(Stop::Refused(Refusal::Orbits)));
}

/// A closed list is not extended [17.9].
#[test]
fn closed_lists_are_not_extended() {
    let Some((mut engine, oracle)) = both() else {
        return;
    };
    let package = pack("count 2\nglobal 0 1 2 3\nrows\n0 1 2 3\n");
    let square = answered(engine.as_mut(), &oracle, &job(SQUARE), &package);
    let plain = common::answer(&oracle, SQUARE);
    assert_eq!((square.examined, plain.examined), (22, 35));
    assert_eq!(square.entries, plain.entries);
    let parabola: String = (0..6).map(|i| format!("{i} {}\n", i * i)).collect();
    let parabola = format!("points\n{parabola}");
    let package = pack("count 2\npoints 6\nglobal 0 1 2 3 4 5\n");
    let noble = answered(engine.as_mut(), &oracle, &job(&parabola), &package);
    assert_eq!((noble.entries.len(), noble.examined), (197, 719));
    let plain = common::answer(&oracle, &parabola);
    assert_eq!((plain.entries.len(), plain.examined), (207, 2_445));
}

#[test]
fn at_rank_2_a_package_makes_no_difference_but_is_looked_at() {
    let Some((mut engine, oracle)) = both() else {
        return;
    };
    let segment = job("rank 2\npoints\n0\n1\n");
    let package = pack("count 1\npoints 2\nglobal 0 1\n");
    let found = answered(engine.as_mut(), &oracle, &segment, &package);
    assert_eq!(found, common::answer(&oracle, "rank 2\npoints\n0\n1\n"));
    let asked = (&segment[..], &[][..], WORKSPACE);
    gives(engine.as_mut(), asked, 9, Refusal::Package.code(), &[])
        .unwrap_or_else(|words| panic!("{words}"));
}

#[test]
fn refusal_18_on_both_sides_of_every_bound() {
    let Some((mut engine, oracle)) = both() else {
        return;
    };
    let triangle = job(TRIANGLE);
    let mut refused = |job: &[u8], package: &[u8]| {
        let mut met = Met::default();
        compare(
            engine.as_mut(),
            &oracle,
            (job, package, WORKSPACE),
            &mut met,
        )
        .unwrap_or_else(|words| panic!("{words}"));
        met.for_the_package
    };
    let row = |points: usize| format!("{}\n", up_to(points));
    for (rows, expected) in [(0, 1), (1, 0), (120, 0), (121, 1)] {
        let text = format!(
            "points 3\ncount 2\nglobal 0 1 2\nrows\n{}",
            row(3).repeat(rows)
        );
        assert_eq!(refused(&triangle, &pack(&text)), expected, "{rows} rows");
    }
    let segment = job("rank 2\npoints\n0\n1\n");
    for (points, expected) in [(1, 1), (2, 0), (20, 0), (21, 1)] {
        let text = format!("count 2\nglobal 0 1\nrows\n{}", row(points));
        assert_eq!(refused(&segment, &pack(&text)), expected, "{points} points");
    }
    for (count, expected) in [(0, 1), (1, 0), (65_535, 0)] {
        let text = format!("count {count}\nglobal 0 1 2\nrows\n0 1 2\n");
        assert_eq!(refused(&triangle, &pack(&text)), expected, "count {count}");
    }
    for (text, expected) in [
        ("count 2\nglobal 2 0 1\nrows\n0 1 2\n", 0),
        ("count 2\nglobal 3 0 1\nrows\n0 1 2 3\n", 0),
        ("count 2\nglobal 3 0 1\nrows\n0 1 2\n", 1),
        ("count 2\nglobal 0 1 1\nrows\n0 1 2\n", 1),
        // More points than the full set has.
        ("count 2\nglobal 0 1 0\nrows\n0 1\n", 1),
        ("count 2\nglobal 0 1 2\nrows\n0 2 1\n", 1),
        ("count 2\nglobal 0 1 2\nrows\n0 1 2\n0 2 1\n", 0),
        ("count 2\nglobal 0 1 2\nrows\n0 1 2\n0 2 2\n", 1),
        ("count 2\nglobal 0 1 2\nrows\n0 1 2\n0 3 1\n", 1),
    ] {
        assert_eq!(refused(&triangle, &pack(text)), expected, "{text}");
    }
    let whole = pack("count 2\nglobal 0 1 2\nrows\n0 1 2\n");
    for end in 0..whole.len() {
        assert_eq!(refused(&triangle, &whole[..end]), 1, "{end} bytes");
    }
    assert_eq!(refused(&triangle, &[&whole[..], &[0]].concat()), 1);
    assert_eq!(refused(&triangle, &whole), 0);
}

/// The job's own refusals, 18, 12, what the call meets, and 17.
#[test]
fn refusal_18_has_its_place_behind_11_and_before_12() {
    let Some((mut engine, _)) = both() else {
        return;
    };
    let mut is = |job: &[u8], package: &[u8], workspace: usize, refusal: Refusal| {
        gives(
            engine.as_mut(),
            (job, package, workspace),
            3,
            refusal.code(),
            &[],
        )
        .unwrap_or_else(|words| panic!("{words}"));
    };
    let good = pack("count 2\nglobal 0 1 2\nrows\n0 1 2\n");
    let triangle = job(TRIANGLE);
    let mut row = Job::read(&triangle).expect("the triangle is laid out");
    row.rows.push(vec![0, 0, 1]);
    is(&[], &[], 0, Refusal::Mark);
    is(&row.write(), &[], 0, Refusal::Permutation);
    is(&triangle, &[], 0, Refusal::Package);
    is(&triangle, &good, 524_287, Refusal::Workspace);
    let poor = job(&format!("{TRIANGLE}budget 0\n"));
    is(&poor, &good, 524_288, Refusal::Budget);
    is(&triangle, &good, 524_288, Refusal::Room);
}

#[test]
fn generated_packages_give_what_the_original_gives() {
    let Some((mut engine, oracle)) = both() else {
        return;
    };
    let met = compare_generated(engine.as_mut(), &oracle, 41, COUNT)
        .unwrap_or_else(|words| panic!("{words}"));
    assert_eq!(met.packages, COUNT);
    assert!(met.for_the_package > 100, "{met:?}");
    assert!(met.packages > met.refused + 100, "{met:?}");
    assert!(
        met.dropped > 100 && met.orbits > met.dropped + 100,
        "{met:?}"
    );
    assert!(met.marked_anew > 100 && met.held > 50, "{met:?}");
    assert!(met.not_minimal > 0 && met.carried > 100, "{met:?}");
}

/// What is worked out a second time tells a wrong tally from a right one.
#[test]
fn kept_orbits_follow_the_text() {
    let Some(oracle) = oracle() else { return };
    let judged = oracle.judge(&job(TRIANGLE), WORKSPACE);
    let with = |text: &str| {
        let package = Package::read(3, &pack(text)).expect("a package");
        kept(&package, &judged.events.orbits)
    };
    let rows = "global 0 1 2\nrows\n0 1 2\n1 2 0\n";
    let (kept, anew) = with(&format!("count 2\n{rows}"));
    assert_eq!((kept, anew), (vec![false, false, true], true));
    let (kept, _) = with(&format!("count 4\n{rows}"));
    assert_eq!(kept, [true, true, true]);
    let (kept, anew) = with("count 1\nglobal 0 1 2\nrows\n0 1 2\n");
    assert_eq!((kept, anew), (vec![false, false, false], false));
}

/// A package of examples/ and the vertex set that it is for.
const EXAMPLES: [(&str, &str); 2] = [
    ("excavated-dodecahedron", "dodecahedron-hexagon.txt"),
    ("great-dodecahedron", "pentagon.txt"),
];

fn examples() -> std::path::PathBuf {
    Path::new(env!("CARGO_MANIFEST_DIR")).join("../examples")
}

/// The options that make the command use each engine that is there.
fn options() -> Vec<&'static [&'static str]> {
    ways().into_iter().map(|way| way.option).collect()
}

/// The pages, recorded by the original; the register must come to the same. With
/// RECORD_PAGES=1 the original's are written instead of compared.
#[test]
fn packages_of_examples_have_their_recorded_pages() {
    let folder = examples();
    let there = common::place::names(&folder);
    let packages: Vec<&str> = there
        .iter()
        .filter_map(|name| name.strip_suffix(".package"))
        .collect();
    assert_eq!(packages, EXAMPLES.map(|(package, _)| package));
    for option in options() {
        for (package, set) in EXAMPLES {
            let place = folder.join(format!("pages/{package}.noble"));
            let [file, set] = [format!("{package}.package"), set.into()]
                .map(|name: String| folder.join(name).display().to_string());
            let run = Place::new("noble-pages");
            let found = run
                .run(COMMAND, &[option, &["--noble", &file, &set]].concat())
                .fine();
            let found = found.replace("Answered by: original", "Answered by: register");
            if std::env::var_os("RECORD_PAGES").is_some() && option == ["--original"] {
                std::fs::write(&place, &found).expect("pages can be written");
            }
            let recorded = std::fs::read_to_string(&place).expect("the page is recorded");
            assert_eq!(found, recorded, "{package} {option:?}");
        }
    }
}

/// The figures that collectors know: the facets of the great dodecahedron and of the
/// small stellated one, and of the excavated dodecahedron.
#[test]
fn noble_figures_close_on_the_full_set() {
    for option in options() {
        let json = |package: &str, set: &str| {
            let [file, set] = [format!("{package}.package"), set.into()]
                .map(|name: String| examples().join(name).display().to_string());
            let words = [option, &["--json", "--noble", &file, &set]].concat();
            Value::read(&Place::new("noble-json").run(COMMAND, &words).fine())
        };
        let closed = |value: &Value| -> Vec<[u32; 3]> {
            let full = value.field("package").field("full");
            let closes = |full: &&Value| {
                let closes = full.field("closes").truth();
                assert_eq!(closes, full.field("around").words() == [2, 2]);
                closes
            };
            let numbers =
                |full: &Value| ["facets", "ridges", "points"].map(|name| full.field(name).word());
            full.list().iter().filter(closes).map(numbers).collect()
        };
        let pentagon = json("great-dodecahedron", "pentagon.txt");
        assert_eq!(closed(&pentagon), [[12, 30, 12], [12, 30, 12]]);
        let label = pentagon.field("label").text();
        assert!(label.starts_with("2 figures (by a package, over the orbits that it keeps)"));
        assert_eq!(pentagon.field("package").field("count").word(), 12);
        assert_eq!(pentagon.field("carried").field("elsewhere").list().len(), 2);
        let hexagon = json("excavated-dodecahedron", "dodecahedron-hexagon.txt");
        let hexagons = closed(&hexagon);
        assert!(hexagons.contains(&[20, 60, 20]), "{hexagons:?}");
    }
}

#[test]
fn the_command_tells_what_is_promised_and_what_is_refused() {
    for option in options() {
        let place = Place::new("noble-command");
        place.write("square.txt", SQUARE);
        place.write("some.txt", format!("{SQUARE}limit 1\n"));
        place.write("line.txt", "rank 2\npoints\n0\n1\n");
        place.write("two", "points 4\ncount 2\nglobal 0 1 2 3\n");
        place.write("bytes", pack("points 4\ncount 2\nglobal 0 1 2 3\n"));
        place.write("ends", "points 4\ncount 2\nglobal 0 1\n");
        place.write("short", "points 4\ncount 2\nglobal 0 1 2\n");
        place.write("bad", "points 4\nkount 2\n");
        let run = |words: &[&str]| place.run(COMMAND, &[option, words].concat());
        let page = run(&["--noble", "two", "square.txt"]).fine();
        let every = "noble: proved: each entry is that of a closed choice over the orbits that \
                     the package keeps";
        assert!(page.contains("\nLabel: 7 figures (by a package, over the orbits that it keeps)"));
        assert!(
            page.contains(&format!("\n  {every}; and, where a facet's shares")),
            "{page}"
        );
        assert!(
            page.contains("by all rows") || !page.contains("carried"),
            "{page}"
        );
        assert!(
            page.contains("\nPackage: sha256 ") && !page.contains("\nPlain:"),
            "{page}"
        );
        assert_eq!(page, run(&["--noble", "bytes", "square.txt"]).fine());
        let some = run(&["--noble", "two", "some.txt"]).fine();
        assert!(some.contains(&format!("\n  {every}\n")), "{some}");
        let line = run(&["--noble", "ends", "line.txt"]).fine();
        assert!(
            line.contains("\n  noble: at rank 2 a package makes no difference\n"),
            "{line}"
        );
        let raw = run(&["--noble", "two", "--raw", "square.txt"]);
        assert_eq!(raw.status, 0);
        let refused = run(&["--noble", "short", "square.txt"]);
        let told = refused.complaint(1);
        assert!(
            told.starts_with("register: square.txt: refused 18: "),
            "{told}"
        );
        assert!(told.contains("the package has 12 bytes; "), "{told}");
        let bad = run(&["--noble", "bad", "square.txt"]);
        assert!(bad
            .complaint(2)
            .starts_with("register: bad: line 2: 'kount' is not"));
        let two = run(&["--noble", "two", "square.txt", "some.txt"]);
        assert_eq!(two.complaint(2), "register: '--noble' takes one vertex set");
        let misused = run(&["--noble", "two", "--csv", "square.txt"]);
        assert!(misused
            .complaint(2)
            .starts_with("register: '--noble' goes with the page"));
    }
}
