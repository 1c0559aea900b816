//! Cutting sheets: lengths in millimetres as geometry has them, in both forms, flaps, and
//! marks that fit the joints.

mod common;

use std::collections::BTreeMap;
use std::path::Path;

use faceting_register::request::{ask, LONGEST};
use faceting_register::Job;
use facetings_host::format::vertex_set;
use facetings_host::report::{Report, Source};
use facetings_host::workshop::pieces::{pieces, Drawn};

use common::place::{Done, Place};
use common::ways::ways;

const COMMAND: &str = env!("CARGO_BIN_EXE_register");

fn example(name: &str) -> Vec<u8> {
    let file = Path::new(env!("CARGO_MANIFEST_DIR")).join(format!("../examples/{name}"));
    std::fs::read(file).expect("the example is there")
}

/// A test by itself with whichever engine is there, in a folder with that example.
fn with_one(folder: &str, name: &str, test: impl Fn(&Place, &dyn Fn(&[&str]) -> Done)) {
    let Some(way) = ways().pop() else { return };
    let place = Place::new(&format!("sheets-{folder}"));
    place.write(&format!("{name}.txt"), example(&format!("{name}.txt")));
    test(&place, &|words| {
        place.run(COMMAND, &[way.option, words].concat())
    });
}

fn text(place: &Place, name: &str) -> String {
    String::from_utf8(place.read(name)).expect("the file is text")
}

/// The groups of a DXF file between one 0 and the next, each as its codes and values.
fn entities(dxf: &str) -> Vec<Vec<(i32, String)>> {
    let lines: Vec<&str> = dxf.lines().collect();
    assert_eq!(lines.len() % 2, 0, "codes and values come in pairs");
    let mut found: Vec<Vec<(i32, String)>> = Vec::new();
    for pair in lines.chunks(2) {
        let code: i32 = pair[0].parse().expect("a code is a number");
        if code == 0 || found.is_empty() {
            found.push(Vec::new());
        }
        found
            .last_mut()
            .expect("a group")
            .push((code, pair[1].to_string()));
    }
    assert_eq!(found.last().map(|group| group[0].1.as_str()), Some("EOF"));
    found
}

fn value(group: &[(i32, String)], code: i32) -> &str {
    &group
        .iter()
        .find(|(known, _)| *known == code)
        .expect("the code is there")
        .1
}

/// The lengths of lines in each layer of a DXF file.
fn lengths(dxf: &str) -> BTreeMap<String, Vec<f64>> {
    let mut found: BTreeMap<String, Vec<f64>> = BTreeMap::new();
    for group in entities(dxf).iter().filter(|group| group[0].1 == "LINE") {
        let [a, b, c, d] =
            [10, 20, 11, 21].map(|code| value(group, code).parse::<f64>().expect("a number"));
        found
            .entry(value(group, 8).into())
            .or_default()
            .push((c - a).hypot(d - b));
    }
    found
}

fn words(dxf: &str) -> Vec<String> {
    let groups = entities(dxf);
    let texts = groups.iter().filter(|group| group[0].1 == "TEXT");
    texts.map(|group| value(group, 1).to_string()).collect()
}

/// The same lines in the SVG file, by layer.
fn svg_lengths(svg: &str) -> BTreeMap<String, Vec<f64>> {
    let mut found: BTreeMap<String, Vec<f64>> = BTreeMap::new();
    for line in svg.lines().filter(|line| line.starts_with("<line ")) {
        let value = |name: &str| -> &str {
            let (_, behind) = line.split_once(&format!(" {name}=\"")).expect("a value");
            behind.split('"').next().unwrap_or("")
        };
        let [a, b, c, d] =
            ["x1", "y1", "x2", "y2"].map(|name| value(name).parse::<f64>().expect("a number"));
        found
            .entry(value("class").into())
            .or_default()
            .push((c - a).hypot(d - b));
    }
    found
}

fn near(found: &[f64], wanted: &[f64]) -> bool {
    found.len() == wanted.len() && found.iter().zip(wanted).all(|(a, b)| (a - b).abs() < 0.002)
}

#[test]
fn a_square_of_20_millimetres_and_its_marks() {
    with_one("square", "cube", |place, run| {
        run(&["--sheet", "10", "cube.txt", "-o", "out"]).fine();
        let dxf = text(place, "out/cube-0-sheet.dxf");
        let svg = text(place, "out/cube-0-sheet.svg");
        for found in [lengths(&dxf), svg_lengths(&svg)] {
            assert!(near(&found["CUT"], &[20.0; 4]), "{found:?}");
            assert_eq!(found.len(), 1);
        }
        let told = words(&dxf);
        assert_eq!(told[..4], ["A 90.00%%d"; 4]);
        assert_eq!(told[4], "Entry 0 of cube.txt, 1 unit = 10 mm");
        assert_eq!(told[5], "A x 6: square, side 20.0000 mm");
        assert!(svg.contains("mm\" height=\"") && svg.contains(">A × 6: square, side 20.0000 mm<"));
        assert!(dxf.is_ascii() && dxf.contains("\n$ACADVER\n1\nAC1009\n"));
        let both = words(&text(place, "out/cube-1-sheet.dxf"));
        assert!(
            both.contains(&"B x 8: triangle, side 28.2843 mm".into()),
            "{both:?}"
        );
    });
}

/// A pentagram's sides are parted by the golden ratio; the middle parts are not cut.
#[test]
fn a_pentagram_is_cut_along_its_outline() {
    with_one("pentagram", "icosahedron", |place, run| {
        run(&["--sheet", "10", "icosahedron.txt", "-o", "out"]).fine();
        let golden = (1.0 + 5_f64.sqrt()) / 2.0;
        let side = 20.0 * golden;
        let found = lengths(&text(place, "out/icosahedron-0-sheet.dxf"));
        assert!(
            near(&found["CUT"], &[side / golden.powi(2); 10]),
            "{found:?}"
        );
        assert!(
            near(&found["INNER"], &[side / golden.powi(3); 5]),
            "{found:?}"
        );
    });
}

#[test]
fn flaps_are_folded_along_the_sides() {
    with_one("flaps", "cube", |place, run| {
        run(&["--sheet", "10", "--flaps", "5", "cube.txt", "-o", "out"]).fine();
        let found = lengths(&text(place, "out/cube-0-sheet.dxf"));
        assert!(near(&found["FOLD"], &[20.0; 4]), "{found:?}");
        let (end, top) = (5.0 * 2_f64.sqrt(), 10.0);
        let flap = [end, top, end];
        assert!(near(&found["CUT"], &flap.repeat(4)), "{found:?}");
        run(&["--sheet", "1", "--flaps", "50", "cube.txt", "-o", "out"]).fine();
        let found = lengths(&text(place, "out/cube-0-sheet.dxf"));
        assert!(found["CUT"].iter().all(|length| *length < 1.5), "{found:?}");
    });
}

#[test]
fn a_prism_names_the_partner_of_each_side_and_polygons_are_sticks() {
    with_one("prism", "prism-5", |place, run| {
        run(&["--sheet", "10", "prism-5.txt", "-o", "out"]).fine();
        let told = words(&text(place, "out/prism-5-0-sheet.dxf"));
        let marks = |mark: &str| told.iter().filter(|words| *words == mark).count();
        assert_eq!(
            (
                marks("A 90.00%%d"),
                marks("B 90.00%%d"),
                marks("B 108.00%%d")
            ),
            (2, 5, 2)
        );
        place.write("pentagon.txt", example("pentagon.txt"));
        run(&["--sheet", "10", "pentagon.txt", "-o", "out"]).fine();
        let found = lengths(&text(place, "out/pentagon-1-sheet.dxf"));
        assert_eq!(found["CUT"].len(), 1);
        let told = words(&text(place, "out/pentagon-1-sheet.dxf"));
        assert!(told[1].starts_with("B x 5: stick, length "), "{told:?}");
    });
}

#[test]
fn bad_millimetres_are_told_in_one_line() {
    with_one("bad", "cube", |_, run| {
        for value in ["0", "-3", "x", "inf", "nan", ""] {
            let line = format!("register: '--sheet' takes millimetres above 0, not '{value}'");
            assert_eq!(
                run(&["cube.txt", "-o", "out", "--sheet", value]).complaint(2),
                line
            );
        }
        let done = run(&["--flaps", "3", "cube.txt"]);
        assert_eq!(done.complaint(2), "register: '--flaps' goes with '--sheet'");
        let done = run(&["--sheet", "3", "cube.txt"]);
        assert_eq!(
            done.complaint(2),
            "register: '--sheet' writes files: name a folder with -o"
        );
    });
}

/// Every joint has its mark on both of its sides, and no side has another.
#[test]
fn marks_are_as_many_as_the_sides_of_joints() {
    let Some(mut way) = ways().pop() else { return };
    for name in ["cuboctahedron.txt", "antiprism-5.txt", "corner-flap.txt"] {
        let set = vertex_set::read(name, &example(name)).remove(0);
        let job = set.job.clone().expect("the example is a job");
        let bytes = ask(way.engine.as_mut(), &job, LONGEST).expect("an answer");
        let asked = Job::read(&job).expect("the example is a job");
        let source = Source::of("register", &job);
        let report = Report::of(&set.subject, source, asked, &bytes, None).expect("an answer");
        for (e, entry) in report.parts.entries.iter().enumerate() {
            let mut joints: BTreeMap<(usize, usize), usize> = BTreeMap::new();
            for joint in &entry.joints {
                let [a, b] = joint.between;
                for pair in [(a, b), (b, a)] {
                    *joints.entry(pair).or_default() += joint.count;
                }
            }
            let mut marks: BTreeMap<(usize, usize), usize> = BTreeMap::new();
            let (mut all, mut sticks) = (0, 0);
            for piece in pieces(&report, e) {
                all += piece.count;
                sticks += usize::from(matches!(piece.drawn, Drawn::Stick(_)));
                for partner in piece.partners.iter().flatten() {
                    *marks.entry((piece.shape, partner.shape)).or_default() += piece.count;
                }
            }
            let polygons = |&f: &usize| report.parts.shapes.facets[f].polygons().len();
            assert_eq!((all, sticks), (entry.facets.iter().map(polygons).sum(), 0));
            let measured = |f: &usize| polygons(f) > 0;
            if entry.facets.iter().all(measured) {
                assert_eq!(marks, joints, "{name}, entry {e}");
            }
        }
    }
}
