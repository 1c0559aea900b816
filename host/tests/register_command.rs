//! The register's command as it is called: pages, JSON, bytes, several sets, and
//! what it says about bad input.

mod common;

use faceting_register::request::{ask, LONGEST};
use faceting_register::{Answer, Entry, Figure};
use facetings_host::report::hash::sha256;

use common::json::Value;
use common::place::{Done, Place};
use common::ways::ways;
use common::{job, CORNER, SQUARE, SQUARE_GROUP};

const COMMAND: &str = env!("CARGO_BIN_EXE_register");

/// A test by itself for each engine that there is, in a folder of its own.
fn on_each(name: &str, test: impl Fn(&Place, &dyn Fn(&[&str]) -> Done)) {
    for way in ways() {
        let place = Place::new(&format!("register-{name}"));
        test(&place, &|words| {
            place.run(COMMAND, &[way.option, words].concat())
        });
    }
}

#[test]
fn help_tells_options_statuses_and_the_text_form() {
    let place = Place::new("register-help");
    for word in ["--help", "-h"] {
        let help = place.run(COMMAND, &[word]).fine();
        let needed = [
            "usage: ./register ",
            "--json",
            "--raw",
            "-o PLACE",
            "--room N",
            "exit status",
            "generators",
        ];
        for part in needed {
            assert!(help.contains(part), "{part} is missing");
        }
    }
}

/// The set in the help, as a reader would copy it.
#[test]
fn the_set_in_the_help_is_answered() {
    on_each("copied", |place, run| {
        let help = run(&["--help"]).fine();
        let (_, set) = help.split_once("\n\n  # What").expect("the set is there");
        let (set, _) = set.split_once("\n\n").expect("the set ends");
        place.write("copied.txt", format!("  # What{set}\n"));
        let page = run(&["copied.txt"]).fine();
        assert!(page.starts_with("copied.txt\nWhat it shows, for the page.\n\nLabel: 1 figure"));
    });
}

#[test]
fn bad_usage_is_told_in_one_line_with_status_2() {
    let place = Place::new("register-usage");
    let cases: [(&[&str], &str); 7] = [
        (&[], "no vertex set is named; see --help"),
        (&["--loud", "a"], "'--loud' is no option; see --help"),
        (&["a", "-o"], "'-o' needs a value"),
        (&["-o", "x", "-o", "y"], "'-o' was given before"),
        (
            &["--json", "--raw", "a"],
            "'--json' and '--raw' exclude each other",
        ),
        (
            &["--room", "x", "a"],
            "'--room' takes a whole number, not 'x'",
        ),
        (&["--room"], "'--room' needs a value"),
    ];
    for (words, error) in cases {
        let done = place.run(COMMAND, words);
        assert_eq!(done.complaint(2), format!("register: {error}"), "{words:?}");
    }
}

#[test]
fn without_what_answers_the_status_is_3() {
    let place = Place::new("register-absent");
    place.write("square.txt", SQUARE);
    if !cfg!(has_miratope) {
        let done = place.run(COMMAND, &["--original", "square.txt"]);
        assert!(done.complaint(3).contains("the Rust source is not there"));
    }
    if !faceting_register::register::LINKED {
        let done = place.run(COMMAND, &["square.txt"]);
        assert!(done.complaint(3).contains("the register is not linked"));
    }
}

#[test]
fn a_page_has_the_numbers_of_the_answer() {
    on_each("page", |place, run| {
        place.write(
            "my square.txt",
            format!("# Four corners.\n{SQUARE}{SQUARE_GROUP}"),
        );
        let expected = "\
my square.txt
Four corners.

Label: 1 figure, 1 of them plain
  plain: each figure that is not plain has all the parts of another that is listed, which is \
proved; a plain one may have them too

Notes: none
  margin: points counted off a line are 0.707 or more away; the border is 1e-7

Possible facets: 2 orbits of lines
  orbit 0: 4 lines, 1 possible facet
    0.0  edge 0-1
  orbit 1: 2 lines, 1 possible facet
    1.0  edge 0-2

Figures: 1 entry, closes in itself
  entry  points  edges  facets  parts (orbit.facet)
      0       4      4       4  0.0
  carried to itself by all rows

Parts, measured: 1 shape
  A edge, length 1.0000
  entry 0: 4 × A edge, length 1.0000; 4 corners, angle 90.00° A–A

Compounds: no entries

Plain: 1 entry
  0

3 lists were examined.

Answered by: ";
        let page = run(&["my square.txt"]).fine();
        assert!(page.starts_with(expected), "{page}");
        assert_eq!(run(&["--", "my square.txt"]).fine(), page);
    });
}

#[test]
fn a_set_may_come_as_job_bytes_or_on_standard_input() {
    for way in ways() {
        let place = Place::new("register-input");
        let bytes = job(SQUARE);
        place.write("square.job", &bytes);
        let run = |word, input: &[u8]| {
            let words = [way.option, &[word]].concat();
            let page = place.run_on(COMMAND, &words, input).fine();
            page.split_once('\n').map(|(_, rest)| rest.to_string())
        };
        let from_file = run("square.job", b"");
        assert!(from_file
            .as_ref()
            .is_some_and(|page| page.contains("7 figures")));
        assert_eq!(run("-", SQUARE.as_bytes()), from_file);
        assert_eq!(run("-", &bytes), from_file);
        let edited = format!("\u{feff}{}", SQUARE.replace('\n', "\r\n"));
        assert_eq!(run("-", edited.as_bytes()), from_file);
    }
}

#[test]
fn refusals_have_number_rule_and_change_in_one_line() {
    on_each("refused", |place, run| {
        place.write("corner.txt", format!("{CORNER}budget 26\n"));
        place.write("point.txt", "points\n0 0\n");
        place.write("short.job", "FCT");
        let cases = [
            ("corner.txt", "refused 16: a list is due when the budget is used up; the rule: "),
            ("point.txt", "refused 5: the number of points is not 2 to 20; the rule: a set has 2 to 20 points; what to change: "),
            ("short.job", "refused 1: "),
        ];
        for (file, words) in cases {
            let done = run(&[file]);
            let said = done.complaint(1);
            assert!(
                said.starts_with(&format!("register: {file}: {words}")),
                "{said}"
            );
            assert!(said.contains("; what to change: "), "{said}");
        }
        // A refused set leaves no file, and what was there stays.
        place.write("kept", "older");
        run(&["corner.txt", "-o", "new"]).complaint(1);
        run(&["corner.txt", "-o", "kept"]).complaint(1);
        assert_eq!(place.read("kept"), b"older");
        assert!(!place.names().contains(&"new".into()));
    });
}

#[test]
fn bad_files_are_told_in_one_line_with_status_2() {
    on_each("bad", |place, run| {
        place.write("binary.txt", [255, 0, 1]);
        place.write("wrong.txt", "points\n0 0\n1");
        place.write("empty.txt", "");
        place.write("folder/other", "");
        place.write("square.txt", SQUARE);
        let cases: [(&[&str], &str); 7] = [
            (&["absent.txt"], "absent.txt: cannot be read: "),
            (
                &["binary.txt"],
                "binary.txt: neither text nor the bytes of a job",
            ),
            (
                &["wrong.txt"],
                "wrong.txt: line 3: the point has 1 coordinates instead of 2",
            ),
            (&["empty.txt"], "empty.txt: "),
            (
                &["folder"],
                "folder: cannot be read: no file in it or below it ends in .txt, .job or .off",
            ),
            (
                &["square.txt", "-o", "absent/page"],
                "cannot write absent/page: ",
            ),
            (&["square.txt", "-o", "folder"], "cannot write folder: "),
        ];
        let before = place.names();
        for (words, error) in cases {
            let done = run(words);
            let said = done.complaint(2);
            assert!(said.starts_with(&format!("register: {error}")), "{said}");
        }
        assert_eq!(place.names(), before);
    });
}

#[test]
fn raw_gives_the_bytes_and_room_bounds_them() {
    for mut way in ways() {
        let place = Place::new("register-raw");
        place.write("square.txt", SQUARE);
        let expected = ask(way.engine.as_mut(), &job(SQUARE), LONGEST).expect("an answer");
        let run = |words: &[&str]| place.run(COMMAND, &[way.option, words].concat());
        assert_eq!(run(&["--raw", "square.txt"]).bytes, expected);
        run(&["--raw", "square.txt", "-o", "answer"]).fine();
        assert_eq!(place.read("answer"), expected);
        let exact = expected.len().to_string();
        run(&["square.txt", "--room", &exact]).fine();
        let short = (expected.len() - 1).to_string();
        let done = run(&["square.txt", "--room", &short]);
        assert!(done.complaint(1).contains("refused 17: "));
    }
}

fn figure(value: &Value) -> Figure {
    let rank = |rank: &Value| rank.list().iter().map(Value::words).collect();
    Figure {
        ranks: value.list().iter().map(rank).collect(),
    }
}

fn entry(value: &Value) -> Entry {
    let pair = |pair: &Value| match pair.words()[..] {
        [orbit, facet] => (orbit, facet),
        _ => panic!("{pair:?} is no pair"),
    };
    let names = [
        "before", "edges", "facets", "figure", "look", "measured", "number", "parts", "points",
        "split",
    ];
    assert_eq!(value.names(), names);
    let list = |name| value.field(name).list().iter().map(pair).collect();
    Entry {
        list: list("parts"),
        before: list("before"),
        figure: figure(value.field("figure")),
    }
}

/// The answer that the JSON of a set tells; its names are the documented ones.
fn answer(value: &Value) -> Answer {
    let names = [
        "about",
        "carried",
        "closing",
        "code",
        "compounds",
        "cut",
        "engine",
        "entries",
        "examined",
        "file",
        "job",
        "label",
        "limits",
        "margin",
        "notes",
        "orbits",
        "package",
        "plain",
        "points",
        "rank",
        "result",
        "rows",
        "shapes",
        "symmetry",
        "version",
    ];
    assert_eq!(value.names(), names);
    let each = |name| value.field(name).list().iter();
    for orbit in each("orbits") {
        assert_eq!(orbit.names(), ["count", "facets"]);
    }
    let compound = |compound: &Value| {
        assert_eq!(compound.names(), ["entry", "of"]);
        match compound.field("of").words()[..] {
            [first, second] => [compound.field("entry").word(), first, second],
            _ => panic!("{compound:?} has not two parts"),
        }
    };
    let summary = |e: &Value| ["points", "edges", "facets"].map(|name| e.field(name).word());
    let facets = |orbit: &Value| orbit.field("facets").list().iter().map(figure).collect();
    Answer {
        examined: value.field("examined").word(),
        counts: each("orbits").map(|o| o.field("count").word()).collect(),
        entries: each("entries").map(entry).collect(),
        facets: each("orbits").map(facets).collect(),
        compounds: each("compounds").map(compound).collect(),
        summaries: each("entries").map(summary).collect(),
    }
}

#[test]
fn json_tells_the_whole_answer() {
    let cube: String = (0..8)
        .map(|v| format!("{} {} {}\n", v & 1, v >> 1 & 1, v >> 2))
        .collect();
    let cube = format!("# A \"cube\",\\ \tlimited.\npoints\n{cube}limit 12\n");
    let parabola = "points\n0 0\n1 1\n2 4\n3 9\n4 16\n5 25\n";
    let rank_2 = "rank 2\npoints\n0\n1\n";
    let nothing = &format!("{SQUARE}max 0.5\n");
    on_each("json", |place, run| {
        for text in [&cube, parabola, rank_2, nothing, SQUARE, CORNER] {
            place.write("set.txt", text);
            let line = run(&["--json", "set.txt"]).fine();
            assert_eq!(line.matches('\n').count(), 1);
            let value = Value::read(&line);
            let bytes = run(&["--raw", "set.txt"]).bytes;
            assert_eq!(answer(&value).bytes(), bytes);
            assert_eq!(value.field("code").number(), bytes.len() as i64);
            assert_eq!(value.field("file").text(), "set.txt");
            assert_eq!(value.field("result").text(), "answer");
            assert_eq!(value.field("rank").word(), u32::from(job(text)[5]));
            let page = run(&["set.txt"]).fine();
            let label = value.field("label").text();
            assert!(page.contains(&format!("\nLabel: {label}\n")));
        }
        place.write("set.txt", &cube);
        let value = Value::read(&run(&["--json", "set.txt"]).fine());
        assert_eq!(value.field("about").text(), "A \"cube\",\\ ?limited.");
    });
}

#[test]
fn json_tells_refusals_and_bad_files() {
    on_each("json-bad", |place, run| {
        place.write("corner.txt", format!("{CORNER}budget 26\n"));
        let done = run(&["--json", "corner.txt"]);
        assert_eq!(done.status, 1);
        let value = Value::read(&done.text());
        let names = [
            "change", "code", "engine", "file", "job", "met", "notes", "place", "refusal",
            "result", "rule", "version",
        ];
        assert_eq!(value.names(), names);
        assert_eq!(value.field("code").number(), -16);
        assert_eq!(value.field("refusal").number(), 16);
        assert_eq!(value.field("result").text(), "refused");
        let done = run(&["--json", "absent"]);
        assert_eq!(done.status, 2);
        let value = Value::read(&done.text());
        assert_eq!(value.names(), ["error", "file", "result"]);
        assert_eq!(value.field("result").text(), "bad");
    });
}

/// A folder with an answered set, a refused one, one that is none, and others that
/// are passed over.
fn mixed(place: &Place) {
    place.write("sets/a square.txt", SQUARE);
    place.write("sets/b.job", job(&format!("{CORNER}budget 26\n")));
    place.write("sets/c.txt", "points\n0 0\n1");
    place.write("sets/d.txt", "points\n0 0\n1 1\n2 4\n3 9\n4 16\n5 25\n");
    place.write("sets/notes.md", "passed over");
    place.write("sets/.hidden/e.txt", SQUARE);
}

#[test]
fn a_folder_gives_a_line_each_and_a_bad_file_holds_up_none() {
    on_each("folder", |place, run| {
        mixed(place);
        let done = run(&["sets"]);
        assert_eq!((done.status, done.error.as_str()), (2, ""));
        let text = done.text();
        let lines: Vec<&str> = text.lines().collect();
        assert_eq!(lines.len(), 5, "{text}");
        assert_eq!(lines[0], "[1/4] a square.txt: 7 figures, 7 of them plain");
        assert!(lines[1].starts_with("[2/4] b.job: refused 16: "));
        assert!(lines[2].starts_with("[3/4] c.txt: line 3: "));
        assert_eq!(
            lines[3],
            "[4/4] d.txt: 207 figures, 197 of them plain, 10 of them compounds"
        );
        assert_eq!(
            lines[4],
            "4 sets: 2 answered, 1 refused, 1 bad; \
             214 figures, 204 of them plain, 10 of them compounds"
        );
        let files = run(&["sets/a square.txt", "sets/b.job"]);
        assert_eq!((files.status, files.text().lines().count()), (1, 3));
    });
}

#[test]
fn results_of_several_sets_go_to_a_folder() {
    on_each("several", |place, run| {
        mixed(place);
        let forms: [(&[&str], &[&str]); 3] = [
            (&[], &["a square.page", "d.page"]),
            (&["--raw"], &["a square.answer", "d.answer"]),
            (
                &["--json"],
                &["a square.json", "b.json", "c.json", "d.json"],
            ),
        ];
        for (form, names) in forms {
            let out = Place::new("register-several-out");
            let folder = out.path("").to_string_lossy().into_owned();
            let done = run(&[form, &["sets", "-o", &folder]].concat());
            assert_eq!((done.status, done.text().lines().count()), (2, 5));
            assert_eq!(out.names(), names);
            let alone = run(&[form, &["sets/a square.txt"]].concat());
            assert_eq!(out.read(names[0]), alone.bytes);
        }
        run(&["sets", "-o", "made/here"]);
        assert!(place.path("made/here/d.page").is_file());
        let raw = run(&["--raw", "sets"]);
        assert!(raw.complaint(2).contains("-o PLACE"));
    });
}

#[test]
fn json_of_several_sets_is_a_line_each() {
    on_each("lines", |place, run| {
        mixed(place);
        let done = run(&["--json", "sets"]);
        let results: Vec<String> = done
            .text()
            .lines()
            .map(|line| Value::read(line).field("result").text().into())
            .collect();
        assert_eq!(results, ["answer", "refused", "bad", "answer"]);
        assert_eq!(done.error.lines().count(), 5);
    });
}

#[test]
fn a_text_may_hold_several_sets() {
    on_each("texts", |place, run| {
        let text = format!("job square\n{SQUARE}\njob wrong\npoints\n1 x\njob corner\n{CORNER}");
        place.write("sets.txt", text);
        let done = run(&["sets.txt"]);
        assert_eq!(done.status, 2);
        let text = done.text();
        let lines: Vec<&str> = text.lines().collect();
        assert_eq!(
            lines[0],
            "[1/3] sets.txt, square: 7 figures, 7 of them plain"
        );
        assert!(
            lines[1].starts_with("[2/3] sets.txt, wrong: line 8, job wrong: line 10: "),
            "{text}"
        );
        assert_eq!(
            lines[2],
            "[3/3] sets.txt, corner: 1 figure, 1 of them plain"
        );
        place.write("twice.txt", format!("job a\n{SQUARE}\njob a\n{SQUARE}"));
        let done = run(&["twice.txt", "-o", "out"]);
        assert!(done.complaint(2).contains("two sets would both be written"));
        assert!(!place.names().contains(&"out".into()));
    });
}

/// Both name the engine, the version and the job; JSON has what was asked too.
#[test]
fn page_and_json_name_engine_version_and_job() {
    let text = format!("{SQUARE}{SQUARE_GROUP}max 1.5\nlimit 9\nbudget 77\n");
    let hash = sha256(&job(&text));
    for way in ways() {
        let place = Place::new("register-named");
        place.write("square.txt", &text);
        let run = |words: &[&str]| place.run(COMMAND, &[way.option, words].concat()).fine();
        let engine = match way.option {
            [] => "register",
            _ => "original",
        };
        let version = env!("CARGO_PKG_VERSION");
        let lines =
            format!("\nAnswered by: {engine}, command version {version}\nJob: sha256 {hash}\n");
        let page = run(&["square.txt"]);
        assert!(page.contains(&lines), "{page}");
        assert_eq!(page.matches("the host's own look").count(), 0);
        assert_eq!(page.matches("The host's own look").count(), 1);
        let value = Value::read(&run(&["--json", "square.txt"]));
        let text_of = |name| value.field(name).text();
        let named = ["engine", "version", "job"].map(text_of);
        assert_eq!(named, [engine, version, &hash]);
        let points = value.field("points").list().iter().map(Value::floats);
        let corners = [[0.0, 0.0], [1.0, 0.0], [1.0, 1.0], [0.0, 1.0]];
        assert_eq!(points.collect::<Vec<_>>(), corners);
        let rows: Vec<Vec<u32>> = value
            .field("rows")
            .list()
            .iter()
            .map(Value::words)
            .collect();
        assert_eq!((rows.len(), &rows[1][..]), (8, &[1, 2, 3, 0][..]));
        let limits = value.field("limits");
        assert_eq!(limits.field("min"), &Value::Null);
        assert_eq!(limits.field("max").float(), 1.5);
        assert_eq!(limits.field("entries").word(), 9);
        assert_eq!(limits.field("budget").word(), 77);
    }
}

const COMPOUND: &str = include_str!("../../examples/corner-compound.txt");

/// The choice before splitting, the facet that was split, and what it was split into.
#[test]
fn a_compound_facet_is_told_whole_and_by_its_parts() {
    on_each("compound", |place, run| {
        place.write("corner.txt", COMPOUND);
        place.write("square.txt", SQUARE);
        let page = run(&["corner.txt"]).fine();
        for line in [
            "\n      1       4      6       6  0.0 1.0 1.2 2.0\n",
            "\n  entry 1, before splitting: 0.0 1.1 2.0; 1.1 is 1.0 and 1.2 together\n",
        ] {
            assert!(page.contains(line), "{line} is not in:\n{page}");
        }
        assert_eq!(page.matches(", before splitting: ").count(), 1);
        let value = Value::read(&run(&["--json", "corner.txt"]).fine());
        let entries = value.field("entries").list();
        let pairs = |value: &Value| value.list().iter().map(Value::words).collect::<Vec<_>>();
        let before = [vec![0, 0], vec![1, 1], vec![2, 0]];
        assert_eq!(pairs(entries[1].field("before")), before);
        let [split] = entries[1].field("split").list() else {
            panic!("one facet is split")
        };
        assert_eq!(split.names(), ["facet", "into"]);
        assert_eq!(split.field("facet").words(), [1, 1]);
        assert_eq!(pairs(split.field("into")), [vec![1, 0], vec![1, 2]]);
        for e in [0, 2] {
            assert!(entries[e].field("split").list().is_empty());
        }
        assert!(!run(&["square.txt"]).fine().contains("before splitting: "));
    });
}

/// The two tetrahedra in the cube and the octahedron of its face centres.
#[test]
fn a_compound_facet_is_measured_whole() {
    on_each("whole", |place, run| {
        place.write(
            "cube.txt",
            include_str!("../../examples/cube-face-centres.txt"),
        );
        let page = run(&["cube.txt"]).fine();
        let made = "1 × B triangle, side 2.8284 and 1 × C triangle, side 1.4142";
        for line in [
            "\nParts, measured: 5 shapes and 1 compound facet\n",
            "\n  F compound: triangle, side 2.8284 and triangle, side 1.4142\n",
            &format!("; of these 8 × F compound of {made}; 12 joints, angle 70.53° B–B; "),
        ] {
            assert!(page.contains(line), "{line} is not in:\n{page}");
        }
        let value = Value::read(&run(&["--json", "cube.txt"]).fine());
        let shapes = value.field("shapes").list();
        let compound: Vec<bool> = shapes
            .iter()
            .map(|shape| shape.field("compound").truth())
            .collect();
        assert_eq!(compound, [false, false, false, false, false, true]);
        assert_eq!(shapes[5].field("polygons").list().len(), 2);
        let measured = value.field("entries").list()[11].field("measured");
        let [whole] = measured.field("compounds").list() else {
            panic!("one kind of compound facet")
        };
        assert_eq!(whole.names(), ["count", "parts", "shape"]);
        assert_eq!(whole.field("shape").text(), "F");
        assert_eq!(whole.field("count").word(), 8);
        let part = |part: &Value| {
            (
                part.field("shape").text().to_string(),
                part.field("count").word(),
            )
        };
        let parts: Vec<(String, u32)> = whole.field("parts").list().iter().map(part).collect();
        assert_eq!(parts, [("B".into(), 1), ("C".into(), 1)]);
        run(&["--html", "cube.txt", "-o", "out"]).fine();
        let page = String::from_utf8(place.read("out/cube.html")).expect("text");
        assert!(page.contains(&format!("; of these 8 × F compound of {made}; ")));
        assert!(
            page.contains("<li>F compound: triangle, side 2.8284 and triangle, side 1.4142</li>")
        );
    });
}

/// The grid: eight figures, of which two close, and lines with three points.
const GRID: &str = "points\n0 0\n1 0\n2 0\n0 1\n1 1\n2 1\n0 2\n1 2\n2 2\ngenerators\n0 3 6 1 4 7 2 5 8\n2 5 8 1 4 7 0 3 6\n";

#[test]
fn page_json_and_label_tell_what_the_host_saw() {
    on_each("seen", |place, run| {
        place.write("grid.txt", GRID);
        let page = run(&["grid.txt"]).fine();
        for line in [
            "\nLabel: 8 figures, 4 of them plain, 2 of them close in themselves\n",
            "\nNotes: 1\n  points 0, 1, 2 lie on a line, ",
            "\nFigures: 8 entries, 2 of them close in themselves\n",
            "\n  entry 0: does not close in itself, point 0 lies in 1 edge\n",
            "point 0 lies in 1 edge; in 2 pieces\n",
        ] {
            assert!(page.contains(line), "{line} is not in:\n{page}");
        }
        let value = Value::read(&run(&["--json", "grid.txt"]).fine());
        let looks: Vec<&Value> = value
            .field("entries")
            .list()
            .iter()
            .map(|entry| entry.field("look"))
            .collect();
        assert_eq!(looks[0].names(), ["closes", "equals", "open", "pieces"]);
        assert_eq!(looks[0].field("open").text(), "point 0 lies in 1 edge");
        assert_eq!(looks[2].field("pieces").word(), 2);
        let closing = looks.iter().filter(|look| look.field("closes").truth());
        assert_eq!(closing.count(), 2);
        assert_eq!(value.field("closing").word(), 2);
        assert!(!value.field("cut").truth());
        let notes = value.field("notes").list();
        assert_eq!(notes.len(), 1);
        assert_eq!(notes[0].names(), ["change", "kind", "weighs", "words"]);
        assert_eq!(notes[0].field("kind").text(), "crowded");
        assert!(notes[0].field("weighs").truth());
        let margin = value.field("margin");
        assert_eq!(margin.names(), ["border", "off", "on"]);
        assert!(margin.field("off").float() > 0.4);
    });
}

#[test]
fn strict_ends_with_4_where_a_note_weighs() {
    on_each("strict", |place, run| {
        place.write("sets/grid.txt", GRID);
        place.write("sets/square.txt", SQUARE);
        let noted = "8 figures, 4 of them plain, 2 of them close in themselves; 1 note";
        run(&["sets/grid.txt"]).fine();
        let done = run(&["--strict", "sets/grid.txt"]);
        assert_eq!(done.status, 4);
        assert_eq!(done.error, format!("register: grid.txt: {noted}\n"));
        assert_eq!(done.text(), run(&["sets/grid.txt"]).fine());
        run(&["--strict", "sets/square.txt"]).fine();
        let several = run(&["sets"]).fine();
        assert!(
            several.contains(&format!("] grid.txt: {noted}\n")),
            "{several}"
        );
        let sum = "2 sets: 2 answered, 0 refused, 0 bad; \
            15 figures, 11 of them plain, 9 of them close in themselves\n";
        assert!(several.ends_with(sum), "{several}");
        assert_eq!(run(&["--strict", "sets"]).status, 4);
        place.write("sets/z.txt", format!("{SQUARE}limit 2\n"));
        let cut = run(&["sets"]).fine();
        assert!(
            cut.contains("] z.txt: at least 2 figures (entry limit 2), 2 of them plain\n"),
            "{cut}"
        );
        assert!(cut.contains("; at least 17 figures, "), "{cut}");
    });
}

/// Following the advice does not turn a cut list into a count.
#[test]
fn advice_to_set_a_limit_says_what_the_label_becomes() {
    on_each("advised", |place, run| {
        let points: String = (0..20).map(|v| format!("{} {}\n", v % 5, v / 5)).collect();
        place.write("grid.txt", format!("points\n{points}"));
        place.write("corner.txt", format!("{CORNER}budget 26\n"));
        place.write("square.txt", SQUARE);
        for words in [
            &["grid.txt"][..],
            &["corner.txt"],
            &["square.txt", "--room", "9"],
        ] {
            let done = run(words);
            let said = done.complaint(1);
            assert!(said.contains("'limit 1"), "{said}");
            let honest = "lists only some of the figures, and the label then says 'at least'";
            assert!(said.ends_with(honest), "{said}");
        }
    });
}
