//! What the command makes for a workshop: OFF files that it and other programs read
//! back, and pictures.

mod common;

use std::collections::BTreeSet;
use std::io::Write;
use std::path::Path;

use faceting_register::{answer, Job};
use facetings_host::format::{off, vertex_set};

use common::place::{Done, Place};
use common::ways::ways;
use common::SQUARE;

const COMMAND: &str = env!("CARGO_BIN_EXE_register");
const CUBE: &str = include_str!("../../examples/cube.txt");
const ICOSAHEDRON: &str = include_str!("../../examples/icosahedron.txt");
const GRID: &str = include_str!("../../examples/grid-3x3.txt");

/// A test by itself with whichever engine is there, in a folder of its own.
fn with_one(name: &str, test: impl Fn(&Place, &dyn Fn(&[&str]) -> Done)) {
    let Some(way) = ways().pop() else { return };
    let place = Place::new(&format!("workshop-{name}"));
    test(&place, &|words| {
        place.run(COMMAND, &[way.option, words].concat())
    });
}

fn text(place: &Place, name: &str) -> String {
    String::from_utf8(place.read(name)).expect("the file is text")
}

/// The faces of an OFF file of `points` points, each as the set of its edges.
fn faces(text: &str, points: usize) -> Vec<BTreeSet<[u32; 2]>> {
    let lines = text.lines().filter(|line| !line.starts_with('#'));
    let face = |line: &str| {
        let numbers: Vec<u32> = line
            .split(' ')
            .map(|n| n.parse().expect("a number"))
            .collect();
        let (count, way) = numbers.split_first().expect("a face");
        assert_eq!(*count as usize, way.len());
        let next = way.iter().skip(1).chain(&way[..1]);
        way.iter()
            .zip(next)
            .map(|(&a, &b)| [a.min(b), a.max(b)])
            .collect()
    };
    lines.skip(2 + points).map(face).collect()
}

#[test]
fn an_off_file_has_the_figure_and_is_read_back_as_the_same_points() {
    with_one("off", |place, run| {
        place.write("cube.txt", CUBE);
        let done = run(&["--off", "cube.txt", "-o", "out"]);
        assert!(done.fine().contains("[1/1] cube.txt: 3 figures"));
        assert_eq!(
            common::place::names(&place.path("out")),
            ["cube-0.off", "cube-1.off", "cube-2.off"]
        );
        let job = vertex_set::read("cube.txt", CUBE.as_bytes())
            .remove(0)
            .read_job();
        let job: Job = job.expect("the cube is a job");
        let mut way = ways().pop().expect("an engine");
        let found = answer(way.engine.as_mut(), &job).expect("the cube is answered");
        for (e, entry) in found.entries.iter().enumerate() {
            let file = text(place, &format!("out/cube-{e}.off"));
            assert_eq!(
                off::read(&file).map(|read| read.points),
                Ok(job.points.clone())
            );
            let [points, edges, facets] = found.summaries[e];
            assert!(
                file.contains(&format!("\n{points} {facets} {edges}\n")),
                "{file}"
            );
            let [edges, polygons] = [2, 3].map(|rank| &entry.figure.ranks[rank]);
            let ends = |&edge: &u32| [edges[edge as usize][0], edges[edge as usize][1]];
            let wanted = polygons.iter().map(|subs| subs.iter().map(ends).collect());
            assert_eq!(
                faces(&file, job.points.len()),
                wanted.collect::<Vec<BTreeSet<_>>>()
            );
        }
        let page = run(&["out/cube-1.off"]).fine();
        assert!(page.contains("Label: 3 figures, 2 of them plain, 1 of them a compound"));
    });
}

#[test]
fn off_files_replace_their_own_kind_alone_and_go_with_their_figures() {
    with_one("off-again", |place, run| {
        place.write("set.txt", SQUARE);
        run(&["--off", "set.txt", "-o", "out"]).fine();
        let first = common::place::names(&place.path("out"));
        assert_eq!(first.len(), 7);
        let file = text(place, "out/set-0.off");
        assert!(
            file.starts_with("nOFF\n2\n# Entry 0 of set.txt, written by the register"),
            "{file}"
        );
        place.write("set.txt", format!("{SQUARE}{}", common::SQUARE_GROUP));
        run(&["--off", "set.txt", "-o", "out"]).fine();
        assert_eq!(common::place::names(&place.path("out")), ["set-0.off"]);
        place.write("out/set-0.off", "OFF\n1 0 0\n0 0 0\n");
        let done = run(&["--off", "set.txt", "-o", "out"]);
        assert_eq!(done.status, 2);
        assert!(
            done.text().contains("out/set-0.off is a vertex set itself"),
            "{done:?}"
        );
        assert_eq!(text(place, "out/set-0.off"), "OFF\n1 0 0\n0 0 0\n");
    });
}

#[test]
fn what_does_not_close_has_no_face_and_the_file_says_so() {
    with_one("off-open", |place, run| {
        place.write("grid.txt", GRID);
        run(&["--off", "grid.txt", "-o", "out"]).fine();
        let file = text(place, "out/grid-0.off");
        assert!(
            file.contains("\n# 1 of its facets do not close and have no face here.\n9 0 4\n"),
            "{file}"
        );
        place.write("segment.txt", "rank 2\npoints\n0\n2\n");
        run(&["--off", "segment.txt", "-o", "out"]).fine();
        assert!(text(place, "out/segment-0.off").ends_with("\n2 1 1\n0.0\n2.0\n2 0 1\n"));
    });
}

/// What a program of the system says, if it is there.
fn program(place: &Place, name: &str, words: &[&str]) -> Option<Done> {
    let path = std::env::var_os("PATH").unwrap_or_default();
    let mut files = std::env::split_paths(&path).map(|folder| folder.join(name));
    let Some(file) = files.find(|file| file.is_file()) else {
        let line = format!("skipped: {name} is not on the path\n");
        let _ = std::io::stderr().write_all(line.as_bytes());
        return None;
    };
    Some(place.run(file, words))
}

#[test]
fn another_reader_of_off_finds_the_same_counts() {
    with_one("off-assimp", |place, run| {
        place.write("cube.txt", CUBE);
        run(&["--off", "cube.txt", "-o", "out"]).fine();
        for (e, faces) in [6, 14, 8].into_iter().enumerate() {
            let file = format!("out/cube-{e}.off");
            let Some(done) = program(place, "assimp", &["info", &file, "--raw"]) else {
                return;
            };
            let words: Vec<String> = done.text().split_whitespace().map(String::from).collect();
            let told = |name: &str| {
                words
                    .iter()
                    .position(|word| word == name)
                    .map(|i| &words[i + 1])
            };
            assert_eq!(told("Vertices:").map(String::as_str), Some("8"), "{done:?}");
            assert_eq!(told("Faces:"), Some(&faces.to_string()), "{done:?}");
        }
    });
}

/// That tags are closed in their order; the file has no other faults to look for.
fn is_well_formed(text: &str) {
    let mut open: Vec<&str> = Vec::new();
    let (mut rest, mut count) = (text, 0);
    while let Some((_, behind)) = rest.split_once('<') {
        let (tag, behind) = behind.split_once('>').expect("a tag is ended");
        rest = behind;
        count += 1;
        match tag.strip_prefix('/') {
            _ if tag.starts_with('!') || tag.ends_with('/') => {}
            Some(name) => assert_eq!(open.pop(), Some(name)),
            None => open.push(tag.split(' ').next().unwrap_or(tag)),
        }
    }
    assert!(open.is_empty() && count > 3, "{open:?} stay open");
}

#[test]
fn pictures_are_whole_the_same_each_time_and_have_every_face() {
    with_one("svg", |place, run| {
        place.write("cube & co.txt", CUBE);
        for folder in ["one", "other"] {
            run(&["--svg", "cube & co.txt", "-o", folder]).fine();
        }
        let names = [
            "cube & co-0.svg",
            "cube & co-1.svg",
            "cube & co-2.svg",
            "cube & co.svg",
        ];
        assert_eq!(common::place::names(&place.path("one")), names);
        for (name, faces) in names.into_iter().zip([6, 14, 8, 28]) {
            let picture = text(place, &format!("one/{name}"));
            is_well_formed(&picture);
            assert_eq!(picture, text(place, &format!("other/{name}")));
            assert_eq!(picture.matches("<path class=\"f").count(), faces, "{name}");
            assert_eq!(picture.matches("font-family").count(), 1);
            assert!(picture.contains("font-family:sans-serif"));
            assert!(picture.len() < 1_000 * (faces + 3), "{}", picture.len());
        }
        let sheet = text(place, "one/cube & co.svg");
        for words in [
            "cube &amp; co.txt",
            "3 figures, 2 of them plain, 1 of them a compound",
            ">plain: each figure that is not plain has all the parts of another that is listed, ",
            ">entry 1: 7R4T-8S10-KBDN<",
            ">6 A, 8 B<",
            ">B triangle, side 2.8284<",
        ] {
            assert!(sheet.contains(words), "{words}");
        }
    });
}

/// The picture in README; RECORD_PAGES=1 draws it anew.
#[test]
fn the_picture_in_readme_is_what_the_command_draws() {
    let recorded = Path::new(env!("CARGO_MANIFEST_DIR")).join("../docs/icosahedron.svg");
    with_one("readme", |place, run| {
        place.write("icosahedron.txt", ICOSAHEDRON);
        run(&["--svg", "icosahedron.txt", "-o", "out"]).fine();
        let drawn = text(place, "out/icosahedron.svg");
        if std::env::var_os("RECORD_PAGES").is_some() {
            std::fs::write(&recorded, &drawn).expect("the picture can be written");
        }
        assert_eq!(std::fs::read_to_string(&recorded).ok(), Some(drawn));
    });
    assert!(include_str!("../../README.md").contains("(docs/icosahedron.svg)"));
}

#[test]
fn forms_of_several_files_need_a_folder() {
    let place = Place::new("workshop-folder");
    place.write("square.txt", SQUARE);
    let done = place.run(COMMAND, &["--off", "square.txt"]);
    let line = "register: '--off' writes files: name a folder with -o";
    assert_eq!(done.complaint(2), line);
    let done = place.run(COMMAND, &["--off", "--json", "square.txt"]);
    assert_eq!(
        done.complaint(2),
        "register: '--off' and '--json' exclude each other"
    );
}
