//! The text form: defaults, expressions, generators, round trips, errors.

mod common;

use std::collections::BTreeSet;

use faceting_register::Job;
use facetings_host::cases::generator::case;
use facetings_host::format::text::{decode, encode, keywords, RULES};

use common::{job, SQUARE, SQUARE_GROUP};

fn read(text: &str) -> Job {
    Job::read(&job(text)).expect("the text form writes the layout")
}

/// A tolerance asks for version 2, and version 1 cannot say one.
#[test]
fn a_tolerance_makes_a_job_of_version_2() {
    let square = |words: &str| read(&format!("{words}{SQUARE}"));
    let usual = square("");
    assert_eq!((usual.version, usual.tolerance), (1, 1e-7));
    let named = square("tolerance 0.001\n");
    assert_eq!((named.version, named.tolerance), (2, 0.001));
    assert_eq!(named, square("version 2\ntolerance 1/1000\n"));
    assert_eq!(read(&decode(&named.write())), named);
    assert_eq!(square("version 2\n").tolerance, 1e-7);
    let both = format!("version 1\ntolerance 0.001\n{SQUARE}");
    let error = encode(&both).expect_err("version 1 has no tolerance");
    assert!(error.contains("version 1 has no tolerance"), "{error}");
}

/// A rule asks for version 3, which has a tolerance too.
#[test]
fn a_rule_makes_a_job_of_version_3() {
    let square = |words: &str| read(&format!("{words}{SQUARE}"));
    assert_eq!(square("").rule, 1);
    assert_eq!(square("tolerance 0.001\n").rule, 1);
    let named = square("rule 2\n");
    assert_eq!((named.version, named.tolerance, named.rule), (3, 1e-7, 2));
    assert_eq!(named, square("version 3\ntolerance 0.0000001\nrule 2\n"));
    assert_eq!(read(&decode(&named.write())), named);
    assert_eq!(square("version 3\n").rule, 1);
    for version in [1, 2] {
        let both = format!("version {version}\ntolerance 0.001\nrule 2\n{SQUARE}");
        let error = encode(&both).expect_err("the version has no rule");
        assert!(error.contains("has no rule"), "{error}");
    }
}

#[test]
fn what_is_not_said_has_its_default() {
    let flat = read(SQUARE);
    assert_eq!(flat, Job::usual(3, flat.points.clone()));
    assert_eq!((flat.version, flat.rank, flat.budget), (1, 3, 1_000_000));
    assert_eq!(flat.basis, [[1.0, 0.0], [0.0, 1.0]]);
    assert_eq!(flat.rows, [[0, 1, 2, 3]]);
    assert_eq!(read("points\n1 2 3 4\n5 6 7 8").rank, 4);
    assert_eq!(read("points\n1\n5").rank, 2);
}

#[test]
fn everything_can_be_said() {
    let said = read(
        "# a job with every keyword
        version 7
        rank 3
        min 0.5   # a comment behind
        max 1e3
        limit 4294967295
        budget 0
        offset 1, -2, 0.25
        basis
        0 1 0
        0 0 1
        dimension 3
        points
        0 0 0
        1 2 3
        rows
        1 0
        255 3",
    );
    assert_eq!((said.version, said.rank, said.budget), (7, 3, 0));
    assert_eq!(
        (said.min, said.max, said.limit),
        (Some(0.5), Some(1e3), Some(u32::MAX))
    );
    assert_eq!(said.offset, [1.0, -2.0, 0.25]);
    assert_eq!(said.basis, [[0.0, 1.0, 0.0], [0.0, 0.0, 1.0]]);
    assert_eq!(said.rows, [[1, 0], [255, 3]]);
}

#[test]
fn numbers_may_be_expressions() {
    let point = read("points\n(1+sqrt(5))/2 -sqrt(2)*+3 (2 - 1e-1) 0x3ff0000000000001").points;
    let golden = (1.0 + 5.0_f64.sqrt()) / 2.0;
    assert_eq!(
        point[0],
        [
            golden,
            -(2.0_f64.sqrt()) * 3.0,
            2.0 - 0.1,
            1.0_f64.next_up()
        ]
    );
}

#[test]
fn generators_are_closed_with_the_identity_first() {
    let rows = read(&format!("{SQUARE}{SQUARE_GROUP}")).rows;
    assert_eq!(rows.len(), 8);
    assert_eq!(rows[0], [0, 1, 2, 3]);
    assert!(read(&format!("{SQUARE}{SQUARE_GROUP}")).rows_closed());
    let alone = read(&format!("{SQUARE}rows\n0 1 2 3\n1 2 3 0\n"));
    assert_eq!(alone.rows.len(), 2);
    assert!(!alone.rows_closed());
}

#[test]
fn commas_may_stand_between_numbers() {
    let expected = [[0.5, 1.0, 2.0]];
    for line in [
        "0.5 1 2",
        "0.5,1,2",
        "0.5, 1, 2",
        "0.5 , 1,2",
        "0.5,\t1, 2,",
    ] {
        assert_eq!(read(&format!("points\n{line}")).points, expected, "{line}");
    }
}

#[test]
fn symmetry_stands_for_the_rows_that_the_points_give() {
    let rows = |word: &str| read(&format!("{SQUARE}symmetry {word}\n")).rows;
    let sorted = |mut rows: Vec<Vec<u8>>| {
        rows.sort();
        rows
    };
    let full = read(&format!("{SQUARE}{SQUARE_GROUP}")).rows;
    let turns = read(&format!("{SQUARE}generators\n1 2 3 0\n")).rows;
    assert_eq!(sorted(rows("full")), sorted(full));
    assert_eq!(sorted(rows("turns")), sorted(turns));
    assert_eq!(rows("none"), [[0, 1, 2, 3]]);
    for word in ["full", "turns"] {
        assert_eq!(rows(word)[0], [0, 1, 2, 3]);
    }
    // The points may stand behind it, and a set that is refused anyway is not looked at.
    assert_eq!(read(&format!("symmetry full\n{SQUARE}")).rows.len(), 8);
    assert_eq!(read("symmetry full\npoints\n1 1\n").rows, [[0]]);
}

#[test]
fn more_symmetries_than_a_job_can_have_are_told_with_a_part_of_them() {
    let same = "0 0\n".repeat(6);
    let text = format!("points\n{same}symmetry full\n");
    let expected = "line 8: the points have 720 symmetries, all of them turns, and a job has at most 120 rows: './register --symmetry' prints generators of the 120 turns that keep point 0 in its place";
    assert_eq!(encode(&text), Err(expected.into()));
}

#[test]
fn the_help_tells_every_keyword_and_no_other() {
    let lines = RULES.lines().filter_map(|line| line.strip_prefix("  "));
    let told: BTreeSet<&str> = lines
        .filter(|line| line.starts_with(char::is_alphabetic))
        .filter_map(|line| line.split(' ').next())
        .collect();
    let known: BTreeSet<&str> = keywords().chain(["job"]).collect();
    assert_eq!(told, known);
}

#[test]
fn every_generated_job_comes_back_byte_for_byte() {
    for number in 0..3_000 {
        let bytes = case(11, number, None).job;
        let text = decode(&bytes);
        assert_eq!(encode(&text), Ok(bytes), "case {number}:\n{text}");
    }
}

/// A text and what is said of it.
const ERRORS: &[(&str, &str)] = &[
    (
        "points\n0 0\n1 x",
        "line 3: 'x' is not a number: 'x' does not belong there",
    ),
    (
        "points\n0 0\n1 2 3",
        "line 3: the point has 3 coordinates instead of 2",
    ),
    (
        "points\n0 0\n\npints",
        "line 4: 'pints' is not a keyword; is 'points' meant?",
    ),
    ("mix 3", "line 1: 'mix' is not a keyword"),
    ("points\nx 1", "line 2: 'x' is not a keyword"),
    (
        "points\n0 0\njob b",
        "line 3: a text of several jobs begins with 'job'",
    ),
    (
        "job a\npoints\n0 0\njob b\npints",
        "line 4, job b: line 5: 'pints' is not a keyword; is 'points' meant?",
    ),
    ("# nothing\n1 2", "line 2: '1 2' belongs to no keyword"),
    ("rank 3\nrank 3", "line 2: 'rank' was given before"),
    (
        "rank 256",
        "line 1: '256' is not a whole number from 0 to 255",
    ),
    (
        "budget -1",
        "line 1: '-1' is not a whole number from 0 to 4294967295",
    ),
    ("min 1 2", "line 1: '1 2' should be one number"),
    ("points 1 2", "line 1: '1 2' belongs on a line of its own"),
    (
        "points\n11111111111111111111111111111111111111111x",
        "line 2: '1111111111111111111111111111111111111111...' is not a number: 'x' does not belong there",
    ),
    (
        "points\n(1+2",
        "line 2: '(1+2' is not a number: it ends too early",
    ),
    (
        "points\n0\n1\nrows\n0 1 2",
        "line 5: the row has 3 images for 2 points",
    ),
    (
        "points\n0\n1\nrows\n0 256",
        "line 5: '256' is not a whole number from 0 to 255",
    ),
    (
        "points\n0\n1\ngenerators\n0 0",
        "line 5: the generator names point 0 twice",
    ),
    (
        "points\n0\n1\n3\ngenerators\n1 3 2",
        "line 6: the generator counts the points from 1; they count from 0, so take 1 from every number",
    ),
    (
        "points\n0\n1\n3\ngenerators\n0 1 3",
        "line 6: the generator names point 3, and the points are 0 to 2",
    ),
    (
        "points\n0\n1\n3\ngenerators\n(0 1)",
        "line 6: '(0 1)' is no row: a row has the image of each point and no cycles in brackets",
    ),
    (
        "points\n0 1.0.0",
        "line 2: '1.0.0' is not a number: it has more than one decimal point",
    ),
    (
        "points\n0 1e",
        "line 2: '1e' is not a number: its exponent is no whole number",
    ),
    ("points\n0 .", "line 2: '.' is not a number: it has no digit"),
    (
        "points\n0,5 1,5",
        "line 2: '0,5 1,5' has both commas and blanks between numbers; a decimal has a point, 0.5 and not 0,5",
    ),
    (
        "max 1,5",
        "line 1: '1,5' should be one number; a decimal has a point, 0.5 and not 0,5",
    ),
    (
        "points\nnan 0",
        "line 2: 'nan' is not a number: a number is finite",
    ),
    (
        "points\n0 -Infinity",
        "line 2: '-Infinity' is not a number: a number is finite",
    ),
    (
        "points\nphi 0",
        "line 2: 'phi' is not a number: the golden ratio is (1+sqrt(5))/2",
    ),
    (
        "points\n0 2*phi",
        "line 2: '2*phi' is not a number: the golden ratio is (1+sqrt(5))/2",
    ),
    (
        "points\n0 sqrt5",
        "line 2: 'sqrt5' is not a number: a root has brackets, sqrt(..)",
    ),
    (
        "points\n0 −1",
        "line 2: '−1' is not a number: this dash is no minus sign, '-'",
    ),
    (
        "points\n0 2^3",
        "line 2: '2^3' is not a number: a square is x*x",
    ),
    (
        "symmetry half",
        "line 1: 'half' should be one of: full, turns, none",
    ),
    (
        "points\n0 0\nbasis\n1",
        "line 4: the basis vector has 1 coordinates instead of 2",
    ),
    (
        "points\n0 0\noffset 1",
        "line 3: the offset has 1 coordinates instead of 2",
    ),
    ("bytes 0g", "line 1: 'g' is not a hex digit"),
    ("bytes 000", "line 1: there is an odd number of hex digits"),
];

#[test]
fn errors_name_line_and_reason() {
    for (text, error) in ERRORS {
        assert_eq!(encode(text), Err(error.to_string()));
    }
}

#[test]
fn what_no_single_line_has_wrong_is_told_without_one() {
    let errors = [
        ("rank 3", "there is neither a point nor a dimension"),
        ("points\n0 0\nrank 0", "rank 0 has no layout"),
        (
            "points\n0 0\nbasis\n1 0",
            "the basis has 1 vectors, rank 3 takes 2",
        ),
        (
            "points\n0\nrows\n0\ngenerators\n0",
            "'rows' and 'generators' exclude each other",
        ),
        (
            "points\n0\nsymmetry none\ngenerators\n0",
            "'generators' and 'symmetry' exclude each other",
        ),
        ("rank 3\nbytes 00", "'bytes' goes with no other keyword"),
        (
            "points\n0 0\ndimension 3",
            "the dimension is 3, but points have 2 coordinates",
        ),
    ];
    for (text, error) in errors {
        assert_eq!(encode(text), Err(error.to_string()));
    }
}
