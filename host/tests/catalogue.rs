//! The catalogue: numbers that last, tables that are compared and put together; and many
//! sets, worked on side by side, by several machines, or in a run that was cut short.

mod common;

use std::collections::BTreeSet;
use std::io::Write;
use std::os::unix::fs::PermissionsExt;
use std::path::{Path, PathBuf};

use faceting_register::quote::Counter;
use facetings_host::catalogue::csv::{self, Line, NUMBER, PRICE};

use common::place::{names, Done, Place};
use common::ways::ways;
use common::{SQUARE, SQUARE_GROUP};

const COMMAND: &str = env!("CARGO_BIN_EXE_register");
const CUBE: &str = include_str!("../../examples/cube.txt");
const ICOSAHEDRON: &str = include_str!("../../examples/icosahedron.txt");
const PENTAGON: &str = include_str!("../../examples/pentagon.txt");

/// A test by itself with whichever engine is there, in a folder of its own.
fn with_one(name: &str, test: impl Fn(&Place, &dyn Fn(&[&str]) -> Done)) {
    let Some(way) = ways().pop() else { return };
    let place = Place::new(&format!("catalogue-{name}"));
    test(&place, &|words| {
        place.run(COMMAND, &[way.option, words].concat())
    });
}

fn table(done: Done) -> Vec<Line> {
    assert_eq!(done.status, 0, "{done:?}");
    csv::read(&done.text()).expect("a catalogue")
}

fn numbers(lines: &[Line]) -> BTreeSet<String> {
    lines.iter().map(|line| line[NUMBER].clone()).collect()
}

#[test]
fn a_catalogue_has_a_line_for_each_figure() {
    with_one("cube", |place, run| {
        place.write("cube.txt", CUBE);
        let lines = table(run(&["--csv", "cube.txt"]));
        let told: Vec<String> = lines.iter().map(|line| line[2..9].join("|")).collect();
        let (squares, triangles) = ("6 x square, side 2.0000", "8 x triangle, side 2.8284");
        assert_eq!(
            told,
            [
                format!("8|12|6|1|yes|{squares}|"),
                format!("8|24|14|3|yes|{squares}; {triangles}|"),
                format!("8|12|8|2|yes|{triangles}|"),
            ]
        );
        assert!(lines.iter().all(|line| line[0] == "cube.txt"));
        run(&["--csv", "cube.txt", "-o", "out.csv"]).fine();
        assert_eq!(
            csv::read(&String::from_utf8_lossy(&place.read("out.csv"))),
            Ok(lines)
        );
    });
}

/// These numbers are on boxes: they may never change.
#[test]
fn numbers_last() {
    with_one("numbers", |place, run| {
        place.write("cube.txt", CUBE);
        let lines = table(run(&["--csv", "cube.txt"]));
        let found: Vec<&str> = lines.iter().map(|line| line[NUMBER].as_str()).collect();
        assert_eq!(found, NUMBERS_OF_THE_CUBE);
    });
}

const NUMBERS_OF_THE_CUBE: [&str; 3] = ["CKBF-JN37-ED4Y", "7R4T-8S10-KBDN", "71T0-FCSZ-ZC93"];

#[test]
fn an_entry_keeps_its_number_when_the_list_around_it_grows() {
    with_one("grows", |place, run| {
        place.write("symmetric.txt", format!("{SQUARE}{SQUARE_GROUP}"));
        place.write("all.txt", SQUARE);
        place.write("some.txt", format!("{SQUARE}limit 3\nbudget 1000\n"));
        place.write("moved.txt", SQUARE.replace("1 1", "1 1.5"));
        let list = |file: &str| numbers(&table(run(&["--csv", file])));
        let all = list("all.txt");
        assert_eq!(
            (
                list("symmetric.txt").len(),
                list("some.txt").len(),
                all.len()
            ),
            (1, 3, 7)
        );
        assert!(list("symmetric.txt").is_subset(&all) && list("some.txt").is_subset(&all));
        assert!(list("moved.txt").is_disjoint(&all));
    });
}

#[test]
fn against_an_older_catalogue_what_came_and_went_is_told() {
    with_one("against", |place, run| {
        place.write("a.txt", format!("{SQUARE}{SQUARE_GROUP}"));
        place.write("b.txt", PENTAGON);
        run(&["--csv", "--quiet", "a.txt", "b.txt", "-o", "old.csv"]).fine();
        let same = run(&["--csv", "--quiet", "b.txt", "a.txt", "--against", "old.csv"]);
        assert_eq!(same.fine(), "0 came, 0 went, 0 changed, 3 stay\n");
        place.write("a.txt", SQUARE);
        place.write("c.txt", CUBE);
        let done = run(&[
            "--csv",
            "--quiet",
            "a.txt",
            "c.txt",
            "--against",
            "old.csv",
            "-o",
            "new.csv",
        ]);
        let told = done.fine();
        assert!(
            told.ends_with("\n9 came, 2 went, 0 changed, 1 stay\n"),
            "{told}"
        );
        assert!(told.contains("\nwent: b.txt "), "{told}");
        assert_eq!(
            csv::read(&String::from_utf8_lossy(&place.read("new.csv"))).map(|l| l.len()),
            Ok(10)
        );
    });
}

#[test]
fn a_catalogue_that_is_none_is_told_in_one_line() {
    with_one("wrong", |place, run| {
        place.write("a.txt", SQUARE);
        for (words, line) in [
            (["--against", "x", "a.txt"], "'--against' goes with '--csv'"),
            (
                ["--csv", "a.txt", "--against=x"],
                "'--against=x' is no option; see --help",
            ),
        ] {
            assert_eq!(run(&words).complaint(2), format!("register: {line}"));
        }
        for (file, line) in [
            ("a.txt", "a.txt: it has not the columns of a catalogue"),
            ("absent", "absent: cannot be read: "),
        ] {
            let done = run(&["--csv", "a.txt", "--against", file]);
            let line = format!("register: {line}");
            assert!(done.complaint(2).starts_with(&line), "{done:?}");
        }
    });
}

#[test]
fn any_number_of_workers_comes_to_the_same_in_the_same_order() {
    with_one("jobs", |place, run| {
        for i in 0..12 {
            let text = [SQUARE, PENTAGON, CUBE, "points\n0 0\n1"][i % 4];
            place.write(&format!("sets/set{i}.txt"), text);
        }
        let mut told = BTreeSet::new();
        for jobs in ["1", "3"] {
            let json = run(&["--json", "--jobs", jobs, "sets"]);
            let csv = run(&["--csv", "--jobs", jobs, "sets"]);
            let pages = run(&["--jobs", jobs, "sets", "-o", jobs]);
            assert_eq!((json.status, csv.status, pages.status), (2, 2, 2));
            assert_eq!(names(&place.path(jobs)).len(), 9);
            told.insert([json.text(), json.error, csv.text(), pages.text()]);
        }
        assert_eq!(told.len(), 1, "{told:#?}");
        let done = run(&["--jobs", "x", "sets"]);
        assert_eq!(
            done.complaint(2),
            "register: '--jobs' takes a whole number, not 'x'"
        );
    });
}

#[test]
fn a_run_that_was_cut_short_goes_on() {
    with_one("resume", |place, run| {
        for (name, text) in [
            ("a", SQUARE),
            ("b", PENTAGON),
            ("c", CUBE),
            ("d", "points\n0 0\n"),
        ] {
            place.write(&format!("sets/{name}.txt"), text);
        }
        for (form, ending) in [(&[][..], "page"), (&["--json"], "json")] {
            let words = [form, &["sets", "-o", "out"]].concat();
            run(&words);
            let file = |name: &str| format!("out/{name}.{ending}");
            let whole = place.read(&file("a"));
            let marked = [&place.read(&file("b"))[..], b"as it was\n"].concat();
            place.write(&file("b"), &marked);
            place.write(&file("a"), &whole[..whole.len() - 1]);
            place.write("sets/c.txt", CUBE.replace("-1", "-2"));
            let done = run(&[&words[..], &["--resume"]].concat());
            assert_eq!(done.status, 1);
            let told = done.text();
            assert!(told.contains("] b.txt: as before\n"), "{told}");
            let all = "4 sets: 2 answered, 1 refused, 0 bad, 1 as before; ";
            let all = format!("{all}10 figures, 9 of them plain, 1 of them a compound\n");
            assert!(told.ends_with(&all), "{told}");
            assert_eq!(place.read(&file("b")), marked);
            assert_eq!(place.read(&file("a")), whole);
            place.write("sets/c.txt", CUBE);
        }
        let done = run(&["--resume", "sets"]);
        assert!(done
            .complaint(2)
            .starts_with("register: '--resume' goes with pages or '--json'"));
    });
}

fn on_the_path(name: &str) -> Option<PathBuf> {
    let path = std::env::var_os("PATH").unwrap_or_default();
    let mut files = std::env::split_paths(&path).map(|folder| folder.join(name));
    let found = files.find(|file| file.is_file());
    if found.is_none() {
        let line = format!("not run: {name} is not on the path, so two hosts were not tried\n");
        let _ = std::io::stderr().write_all(line.as_bytes());
    }
    found
}

/// The tariff of examples/counter.tariff: a square at 150, a triangle at 120, a joint at
/// 15, a twentieth off.
const TARIFF: &str = include_str!("../../examples/counter.tariff");

/// The cube, eight triangles more, and the triangles alone: 6 squares and 12 joints come to
/// 1,080, all faces and 24 joints to 2,220, 8 triangles and 12 joints to 1,140.
#[test]
fn a_tariff_puts_prices_into_the_catalogue_and_on_the_sheet() {
    if Counter::open().is_err() {
        return println!("skipped: only the linked library quotes");
    }
    let place = Place::new("catalogue-priced");
    place.write("cube.txt", CUBE);
    place.write("square.txt", SQUARE);
    place.write("counter.tariff", TARIFF);
    let run = |words: &[&str]| place.run(COMMAND, words);
    let priced = ["--csv", "--quiet", "--price", "counter.tariff"];
    let lines = table(run(&[&priced[..], &["cube.txt", "square.txt"]].concat()));
    let prices: Vec<&str> = lines.iter().map(|line| line[PRICE].as_str()).collect();
    assert_eq!(prices[..3], ["1026", "2109", "1083"]);
    assert!(prices.len() > 3 && prices[3..].iter().all(|price| price.is_empty()));
    let plain = table(run(&["--csv", "--quiet", "cube.txt"]));
    assert!(plain.iter().all(|line| line[PRICE].is_empty()));
    run(&[
        "--svg",
        "--quiet",
        "--price",
        "counter.tariff",
        "cube.txt",
        "-o",
        "out",
    ])
    .fine();
    let sheet = String::from_utf8_lossy(&place.read("out/cube.svg")).into_owned();
    for price in ["1026 pence", "2109 pence", "1083 pence"] {
        assert!(sheet.contains(price), "{price}");
    }
}

#[test]
fn a_tariff_that_is_none_or_goes_with_nothing_is_told() {
    if Counter::open().is_err() {
        return println!("skipped: only the linked library quotes");
    }
    let place = Place::new("catalogue-no-tariff");
    place.write("cube.txt", CUBE);
    place.write("bad.tariff", "joint 1\n");
    let run = |words: &[&str]| place.run(COMMAND, words);
    let bad = run(&[
        "--csv",
        "--price",
        "bad.tariff",
        "cube.txt",
        "-o",
        "out.csv",
    ]);
    assert!(bad.complaint(2).contains("edge count 1 has no price"));
    let absent = run(&["--svg", "--price", "none", "cube.txt", "-o", "out"]);
    assert!(absent.complaint(2).contains("none"));
    run(&["--json", "--price", "bad.tariff", "cube.txt"]).complaint(2);
    assert_eq!(place.names(), ["bad.tariff", "cube.txt"]);
}

/// What stands for ssh: it notes the host and runs the rest here.
const SSH: &str = "#!/bin/sh
while :; do case $1 in -*) shift ;; *) break ;; esac; done
echo \"$1\" >>hosts
shift
[ \"$1\" != -- ] || shift
exec sh -c \"$*\"
";

/// The catalogue of each set by one of two hosts that are this one. GNU parallel starts each
/// command with `$SHELL`, and without one it runs nothing and says that all went well.
fn by_two_hosts(place: &Place, parallel: &Path, option: &[&str], sets: &[&str]) -> Done {
    place.write("out/.keep", "");
    place.write("ssh", SSH);
    let mode = std::fs::Permissions::from_mode(0o755);
    std::fs::set_permissions(place.path("ssh"), mode).expect("the mode can be set");
    let (ssh, here) = (place.path("ssh"), place.0.display().to_string());
    let hosts = format!("1/{0} one,1/{0} other", ssh.display());
    let option = option.join(" ");
    let command = format!("{COMMAND} {option} --csv --quiet {{}} -o out/{{/.}}.csv");
    let parallel = parallel.display().to_string();
    let start = ["SHELL=/bin/sh", &parallel, "--will-cite", "-S", &hosts];
    let words = ["--wd", &here, &command, ":::"];
    place.run("env", &[&start[..], &words, sets].concat())
}

/// As README says it.
#[test]
fn two_hosts_under_gnu_parallel_come_to_the_same_catalogue() {
    let Some(parallel) = on_the_path("parallel") else {
        return;
    };
    with_one("parallel", |place, run| {
        let Some(way) = ways().pop() else { return };
        let sets = ["sets/a.txt", "sets/b.txt", "sets/c.txt", "sets/d.txt"];
        for (name, text) in sets.iter().zip([SQUARE, PENTAGON, CUBE, ICOSAHEDRON]) {
            place.write(name, text);
        }
        let done = by_two_hosts(place, &parallel, way.option, &sets);
        assert_eq!(done.status, 0, "{done:?}");
        let used = String::from_utf8_lossy(&place.read("hosts")).into_owned();
        assert!(used.contains("one\n") && used.contains("other\n"), "{used}");
        let merged = run(&["--csv", "out/a.csv", "out/d.csv", "out/c.csv", "out/b.csv"]);
        let direct = run(&[&["--csv", "--quiet"], &sets[..]].concat());
        assert_eq!(merged.fine(), direct.fine());
    });
}
