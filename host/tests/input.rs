//! Getting a set in: symmetries by the command, OFF files, texts that are saved in
//! another way, and the places that refusals name.

mod common;

use common::json::Value;
use common::place::{Done, Place};
use common::ways::ways;
use common::{job, SQUARE};
use faceting_register::{Job, Refusal};
use facetings_host::format::vertex_set;
use facetings_host::symmetry::Kind;

const COMMAND: &str = env!("CARGO_BIN_EXE_register");

const CUBE: &str = "OFF\n8 6 12\n\
    -1 -1 -1\n1 -1 -1\n-1 1 -1\n1 1 -1\n-1 -1 1\n1 -1 1\n-1 1 1\n1 1 1\n\
    4 0 1 3 2\n4 4 5 7 6\n4 0 1 5 4\n4 2 3 7 6\n4 0 2 6 4\n4 1 3 7 5\n";

/// A test by itself for each engine that there is, in a folder of its own.
fn on_each(name: &str, test: impl Fn(&Place, &dyn Fn(&[&str]) -> Done)) {
    for way in ways() {
        let place = Place::new(&format!("input-{name}"));
        test(&place, &|words| {
            place.run(COMMAND, &[way.option, words].concat())
        });
    }
}

/// The job of the one set of a file.
fn read(name: &str, text: &str) -> Result<Job, String> {
    let mut sets = vertex_set::read(name, text.as_bytes());
    assert_eq!(sets.len(), 1);
    let bytes = sets.remove(0).job?;
    Ok(Job::read(&bytes).expect("the bytes are laid out as a job"))
}

#[test]
fn the_points_of_an_off_file_are_taken_with_their_symmetry() {
    let cube = read("cube.off", CUBE).expect("a job");
    assert_eq!((cube.rank, cube.points.len(), cube.rows.len()), (4, 8, 48));
    assert_eq!(cube.points[1], [1.0, -1.0, -1.0]);
    let alike = [
        CUBE.replace("OFF\n8 6 12", "OFF 8 6 12"),
        CUBE.replace("OFF\n", "# a cube\n\nOFF # here\n# and here\n"),
        CUBE.replace("OFF\n", "nOFF\n3\n"),
        CUBE.replace("OFF\n", "nOFF 3\n"),
        CUBE.replace("OFF\n8 6 12", "3OFF\n8"),
        CUBE.replace('\n', "\r\n"),
        CUBE.replace("OFF\n", "COFF\n")
            .replace("1\n", "1 0.5 0.5 1\n"),
    ];
    for text in alike {
        assert_eq!(read("set", &text).as_ref(), Ok(&cube), "{text}");
    }
    let headless = CUBE.replace("OFF\n", "");
    assert_eq!(read("cube.off", &headless), Ok(cube));
}

#[test]
fn off_files_of_other_dimensions_are_read() {
    let flat = read("set", "2OFF\n4 1\n0 0\n1 0\n1 1\n0 1\n").expect("a job");
    assert_eq!((flat.rank, flat.rows.len()), (3, 8));
    let cells = "4OFF\n5 10 10 5\n1 0 0 0\n0 1 0 0\n0 0 1 0\n0 0 0 1\n0 0 0 0\n";
    let four = read("set", cells).expect("a job");
    assert_eq!((four.rank, four.dimension), (4, 4));
}

#[test]
fn an_off_file_that_is_not_in_order_is_told_by_its_line() {
    let cases = [
        ("OFF\n", "the file ends before the number of points"),
        (
            "OFF\n0.5 1 1\n",
            "line 2: '0.5' should be the number of points",
        ),
        ("OFF\n3 1 3\n0 0 0\n", "the file ends after 1 of 3 points"),
        (
            "OFF\n2 0 0\n0 0 0\n1 1\n",
            "line 4: the point has 2 coordinates instead of 3",
        ),
        (
            "OFF\n2 0 0\n0 0 0 0\n1 1 1 1\n",
            "line 3: the point has 4 coordinates instead of 3; a file of four begins with 4OFF",
        ),
        (
            "OFF\n1 0 0\n# here\n0 nan 0\n",
            "line 4: 'nan' is not a number: a number is finite",
        ),
        (
            "nOFF\nOFF\n",
            "line 2: 'OFF' should be the number of coordinates",
        ),
    ];
    for (text, error) in cases {
        assert_eq!(read("set.off", text), Err(error.into()), "{text}");
    }
}

#[test]
fn a_page_says_what_an_off_file_gave() {
    on_each("off", |place, run| {
        place.write("cube.off", CUBE.replace("OFF\n", "OFF\n# A cube.\n"));
        let page = run(&["cube.off"]).fine();
        let head = "cube.off\nA cube (from an OFF file).\n\nLabel: 3 figures, 2 of them plain, \
             1 of them a compound\n";
        assert!(page.starts_with(head), "{page}");
        assert!(page.contains("\nRows: the 48 symmetries that the host found in the points\n"));
        let json = Value::read(&run(&["--json", "cube.off"]).fine());
        assert_eq!(json.field("symmetry").text(), "full");
        let folder = run(&["."]);
        assert!(folder.text().starts_with("[1/1] cube.off: 3 figures"));
        let spared = run(&["cube.off", "-o", "cube.off"]);
        assert!(spared.complaint(2).ends_with("is a vertex set itself"));
    });
}

#[test]
fn the_command_prints_symmetries_that_can_be_copied() {
    let place = Place::new("input-symmetry");
    place.write("square.txt", format!("{SQUARE}symmetry none\n"));
    let text = place.run(COMMAND, &["--symmetry", "square.txt"]).fine();
    let expected = "\
# square.txt: the points have 8 symmetries, 4 of them turns.
# All of them ('symmetry full'):
generators
1 2 3 0
0 3 2 1
# The turns alone ('symmetry turns'):
generators
1 2 3 0
";
    assert_eq!(text, expected);
    let (_, rest) = text.split_once("full'):\n").expect("the first part");
    let (copied, _) = rest.split_once('#').expect("the second part");
    let rows = |tail: &str| job(&format!("{SQUARE}{tail}"));
    assert_eq!(rows(copied), rows("symmetry full\n"));
    // Also where there are too many of them for an answer.
    let same = "1 1\n".repeat(6);
    place.write("same.txt", format!("points\n{same}symmetry full\n"));
    let text = place.run(COMMAND, &["--symmetry", "same.txt"]).fine();
    let words = "# More than 120; the 120 turns that keep point 0 in its place:\ngenerators\n0 ";
    assert!(text.contains(words), "{text}");
    place.write("bad.txt", "points\n1 x\n");
    place.write("one.txt", "points\n1 1\n");
    let all = place.run(COMMAND, &["--symmetry", "."]);
    assert_eq!((all.status, all.error.lines().count()), (2, 2), "{all:?}");
    assert_eq!(all.text().matches("the points have").count(), 2);
}

#[test]
fn texts_saved_in_another_way_are_told_by_it() {
    on_each("letters", |place, run| {
        let wide = |mark: &[u8], bytes: fn(u16) -> [u8; 2]| {
            let letters = SQUARE.encode_utf16().flat_map(bytes);
            [mark, &letters.collect::<Vec<u8>>()].concat()
        };
        place.write("wide.txt", wide(b"\xff\xfe", u16::to_le_bytes));
        place.write("high.txt", wide(b"\xfe\xff", u16::to_be_bytes));
        place.write("plain.txt", wide(b"", u16::to_le_bytes));
        for name in ["wide.txt", "high.txt", "plain.txt"] {
            let words = format!("register: {name}: the text is UTF-16: save it as UTF-8");
            assert_eq!(run(&[name]).complaint(2), words);
        }
        place.write(
            "latin.txt",
            [b"# W\xfcrfel\n".as_slice(), SQUARE.as_bytes()].concat(),
        );
        let done = run(&["latin.txt"]);
        let words = "line 1: the byte fc is no letter of UTF-8; the text looks like Latin-1: save it as UTF-8";
        assert_eq!(done.complaint(2), format!("register: latin.txt: {words}"));
    });
}

/// A text, the words that name the place, and the change.
const REFUSED: &[(&str, &str, &str)] = &[
    (
        "points\n0 0\n1 0\n0 1\nmax -1\n",
        "refused 9: a number is not finite or beyond its bound; line 5: max is -1, below 0; ",
        "give a length from 0 to 131,072, or leave 'max' out",
    ),
    (
        "min 1/0\npoints\n0 0\n1 0\n0 1\n",
        "line 1: min is not finite; ",
        "give a length from 0 to 131,072, or leave 'min' out",
    ),
    (
        "points\n0 0\n# far\n1 70000\n0 1\n",
        "line 4: the second number of point 1 is 70000, above 65536; ",
        "move the set to the origin, or scale it down",
    ),
    (
        "points\n0 0\nsqrt(-1) 0\n0 1\n",
        "line 3: the first number of point 1 is not a number; ",
        "look for the root of a negative number, or 0/0",
    ),
    (
        "points\n0 0\n1 0\n0 1\noffset 0 -1e9\n",
        "line 5: the second number of the offset is -1000000000, below -65536; ",
        "move the set to the origin, or scale it down",
    ),
    (
        "points\n0 0\n1 0\n0 1\nbasis\n1 0\n0 2\n",
        "line 7: the second number of basis vector 1 is 2, above 1; ",
        "give basis vectors of length 1",
    ),
    (
        "points\n0 0\n1 0\n0 1\nrows\n1 0 2\n",
        "refused 10: row 0 is not the identity; line 6: the first row is 1 0 2; ",
        "begin the rows with 0 1 2 .., or write 'generators' in place of 'rows'",
    ),
    (
        "points\n0 0\n1 0\n0 1\nrows\n1 2 3\n",
        "refused 10: row 0 is not the identity; line 6: the first row counts the points from 1; they count from 0, so take 1 from every number; ",
        "begin the rows with 0 1 2 .., or write 'generators' in place of 'rows'",
    ),
    (
        "points\n0 0\n1 0\n0 1\nrows\n0 1 2\n1 1 2\n",
        "refused 11: a row is not a permutation; line 7: row 1 names point 1 twice; ",
        "correct the row that names a point twice, or a point that is not there",
    ),
    (
        "points\n0 0\n1 0\n0 1\nrows\n0 1 2\n2 1 3\n",
        "line 7: row 1 counts the points from 1; they count from 0, so take 1 from every number; ",
        "correct the row that names a point twice, or a point that is not there",
    ),
];

#[test]
fn refusals_name_the_line_and_what_to_do_there() {
    on_each("refused", |place, run| {
        for (text, words, change) in REFUSED {
            place.write("set.txt", text);
            let done = run(&["set.txt"]);
            let line = done.complaint(1);
            assert!(line.contains(words), "{line}");
            assert!(
                line.ends_with(&format!("what to change: {change}")),
                "{line}"
            );
            let json = Value::read(&run(&["--json", "set.txt"]).text());
            assert!(words.contains(json.field("place").text()), "{json:?}");
            assert_eq!(json.field("change").text(), *change);
            // The same set as bytes has no lines.
            place.write("set.job", job(text));
            let done = run(&["set.job"]);
            assert!(!done.complaint(1).contains("; line "), "{done:?}");
        }
        place.write("set.txt", "points\n0 0\n");
        let json = Value::read(&run(&["--json", "set.txt"]).text());
        assert_eq!(json.field("place"), &Value::Null);
    });
}

/// Files with some bytes altered, put in or taken out: each is read or told of, and
/// what is read keeps its own symmetries.
#[test]
fn damaged_files_are_read_or_told_of() {
    let mut seed = 5_u64;
    let mut next = |most: usize| {
        seed = seed.wrapping_mul(6_364_136_223_846_793_005).wrapping_add(1);
        (seed >> 33) as usize % most
    };
    let letters = b"0123456789.,-+*/()e# \n\r\tOFFnpointsrowsymtlu\xff\x00";
    let whole = format!("# A square.\n{SQUARE}min 0\nmax 1,\nsymmetry full\nlimit 3\nbudget 5\n");
    let (mut read, mut told) = (0, 0);
    for round in 0..20_000 {
        let mut bytes = match round % 3 {
            0 => CUBE.as_bytes().to_vec(),
            1 => whole.clone().into_bytes(),
            _ => job(SQUARE),
        };
        for _ in 0..1 + next(4) {
            let (place, letter) = (next(bytes.len()), letters[next(letters.len())]);
            match next(3) {
                0 => bytes[place] = letter,
                1 => bytes.insert(place, letter),
                _ => drop(bytes.remove(place)),
            }
        }
        vertex_set::is_one(&bytes);
        for set in vertex_set::read("set.txt", &bytes) {
            let symmetry = set.symmetry();
            match (&set.job, symmetry) {
                (Err(_), _) => told += 1,
                (Ok(_), None) => read += 1,
                (Ok(_), Some(symmetry)) => {
                    read += 1;
                    let [full, turns] = [Kind::Full, Kind::Turns].map(|k| symmetry.group(k).order);
                    assert!(full == turns || full == 2 * turns);
                }
            }
            for refusal in Refusal::all() {
                set.culprit(refusal);
            }
        }
    }
    assert!(read > 2_000 && told > 2_000, "{read} read, {told} told of");
}
