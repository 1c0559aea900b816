//! The text form of a package for noble figures: the count, the global numbers of the
//! set's points, and the full set's symmetries, as rows or by generators.

use faceting_register::bounds::{FULL_POINTS, MOST_ROWS};
use faceting_register::job::{identity_row, is_identity};
use faceting_register::noble::PACKAGE_HEADER;
use faceting_register::rows::closure;
use faceting_register::Package;

use super::quote::quoted;
use super::text::{content, row, row_fault, whole};

/// The largest number of full rows that a package's bytes can say.
const MOST_SAID: usize = u16::MAX as usize;

/// The bytes of a package in a file: of its text, or the bytes themselves. A text has no
/// byte of zero, and a package always has one.
pub fn read(file: &[u8]) -> Result<Vec<u8>, String> {
    if file.contains(&0) {
        return Ok(file.to_vec());
    }
    let text = std::str::from_utf8(file).map_err(|_| "it is neither text nor a package")?;
    let mut draft = Draft::default();
    for (index, line) in text.lines().enumerate() {
        let line = content(line);
        if !line.is_empty() {
            let numbered = |words| format!("line {}: {words}", index + 1);
            draft.line(line).map_err(numbered)?;
        }
    }
    draft.whole().map(|package| package.write())
}

/// Which rows stand on the lines below.
#[derive(Clone, Copy, PartialEq, Eq)]
enum Section {
    Rows,
    Generators,
}

#[derive(Default)]
struct Draft {
    points: Option<u8>,
    count: Option<u16>,
    global: Option<Vec<u8>>,
    section: Option<Section>,
    rows: Vec<Vec<u8>>,
}

impl Draft {
    fn line(&mut self, line: &str) -> Result<(), String> {
        let (word, values) = line.split_once(char::is_whitespace).unwrap_or((line, ""));
        let values = values.trim();
        match word {
            "points" => once(&mut self.points, word, whole(values)?),
            "count" => once(&mut self.count, word, whole(values)?),
            "global" => once(&mut self.global, word, row(values)?),
            "rows" => self.begin(Section::Rows, values),
            "generators" => self.begin(Section::Generators, values),
            _ if word.starts_with(char::is_alphabetic) => Err(format!(
                "{} is not a keyword; they are points, count, global, rows, generators",
                quoted(word)
            )),
            _ => self.row(line),
        }
    }

    fn begin(&mut self, section: Section, values: &str) -> Result<(), String> {
        if !values.is_empty() {
            return Err(format!("{} belongs on a line of its own", quoted(values)));
        }
        match self.section.replace(section) {
            None => Ok(()),
            Some(_) => {
                Err("there is one of 'rows' and 'generators', and it was given before".into())
            }
        }
    }

    fn row(&mut self, line: &str) -> Result<(), String> {
        let images = row(line)?;
        match self.section {
            None => return Err(format!("{} belongs to no keyword", quoted(line))),
            Some(Section::Rows) => {}
            Some(Section::Generators) => {
                if let Some(fault) = row_fault(&images) {
                    return Err(format!("the generator {fault}"));
                }
            }
        }
        let due = self.points.map(usize::from);
        let due = due.or(self.rows.first().map(Vec::len));
        if let Some(due) = due.filter(|&due| due != images.len()) {
            let got = images.len();
            return Err(format!("the row has {got} images for {due} points"));
        }
        self.rows.push(images);
        Ok(())
    }

    fn whole(self) -> Result<Package, String> {
        let row = self.rows.first().map(Vec::len);
        let points = match (self.points, row) {
            (Some(points), row) if row.is_none_or(|row| row == points.into()) => points,
            (Some(points), _) => return Err(format!("the rows have another length than {points}")),
            (None, Some(row)) => u8::try_from(row).map_err(|_| "a row has more than 255 images")?,
            (None, None) => return Err("there is neither a row nor 'points'".into()),
        };
        let rows = match self.section {
            Some(Section::Rows) => self.rows,
            _ => closure(points.into(), &self.rows, MOST_SAID + 1),
        };
        if rows.len() > MOST_SAID {
            return Err(format!("there are more than {MOST_SAID} full rows"));
        }
        Ok(Package {
            points,
            count: self.count.ok_or("'count' is missing")?,
            global: self.global.ok_or("'global' is missing")?,
            rows,
        })
    }
}

fn once<T>(place: &mut Option<T>, word: &str, value: T) -> Result<(), String> {
    match place.replace(value) {
        None => Ok(()),
        Some(_) => Err(format!("'{word}' was given before")),
    }
}

/// What is wrong with the bytes of a package for so many points; nothing where it is
/// accepted.
pub fn fault(points: usize, bytes: &[u8]) -> Option<String> {
    match Package::read(points, bytes) {
        None => Some(wrong_length(points, bytes)),
        Some(package) if package.is_good() => None,
        Some(package) => wrong_number(&package).or_else(|| wrong_row(&package)),
    }
}

fn wrong_length(points: usize, bytes: &[u8]) -> String {
    let told = bytes.get(..PACKAGE_HEADER).map(|head| {
        let rows = usize::from(u16::from_le_bytes([head[0], head[1]]));
        PACKAGE_HEADER + points + rows * usize::from(head[2])
    });
    let due = told.map_or(String::new(), |due| {
        format!("; with a global number for each of the {points} points it should have {due}")
    });
    format!("the package has {} bytes{due}", bytes.len())
}

/// The first number in front of the full rows that is outside its range or stands twice.
fn wrong_number(package: &Package) -> Option<String> {
    let Package {
        points,
        count,
        global,
        rows,
    } = package;
    let (least, most) = FULL_POINTS.into_inner();
    let outside = global.iter().find(|&v| v >= points);
    let times = |v: &u8| global.iter().filter(|w| *w == v).count();
    let twice = global.iter().find(|v| times(v) > 1);
    match (outside, twice) {
        _ if !(1..=MOST_ROWS).contains(&rows.len()) => {
            Some(format!("the package has {} full rows", rows.len()))
        }
        _ if !FULL_POINTS.contains(points) => Some(format!(
            "the full set has {points} points, not {least} to {most}"
        )),
        _ if *count == 0 => Some("the count is 0".into()),
        (Some(v), _) => Some(format!("global number {v} is not below {points}")),
        (_, Some(v)) => Some(format!("global number {v} stands twice")),
        _ => None,
    }
}

/// The first full row that is no permutation, or the first of all where it moves a point.
fn wrong_row(package: &Package) -> Option<String> {
    let mut faults = package.rows.iter().map(|row| row_fault(row)).enumerate();
    let fault = faults.find_map(|(r, fault)| Some(format!("full row {r} {}", fault?)));
    let first = package.rows.first().filter(|row| !is_identity(row));
    fault.or_else(|| {
        let identity = identity_row(first?.len());
        let numbers: Vec<String> = identity.iter().map(u8::to_string).collect();
        Some(format!("the first full row is not {}", numbers.join(" ")))
    })
}

#[cfg(test)]
mod tests {
    use super::*;

    #[test]
    fn generators_are_closed_and_rows_are_taken_as_they_stand() {
        let read = |text: &str| Package::read(2, &read(text.as_bytes()).expect(text));
        let turned = read("count 6\nglobal 0, 2 # two of three\ngenerators\n1 2 0\n").expect("one");
        assert_eq!((turned.points, turned.count), (3, 6));
        assert_eq!(turned.global, [0, 2]);
        assert_eq!(turned.rows, [[0, 1, 2], [1, 2, 0], [2, 0, 1]]);
        let stood = read("points 3\nrows\n1 2 0\n1 1 9\nglobal 7 7\ncount 0\n").expect("one");
        assert_eq!(stood.rows, [[1, 2, 0], [1, 1, 9]]);
        assert_eq!((stood.count, stood.global), (0, vec![7, 7]));
        let alone = read("points 4\ncount 2\nglobal 0 1\n").expect("one");
        assert_eq!(alone.rows, [[0, 1, 2, 3]]);
        let bytes = alone.write();
        assert_eq!(super::read(&bytes), Ok(bytes));
    }

    #[test]
    fn every_other_text_is_told_of() {
        for (text, words) in [
            ("", "there is neither a row nor 'points'"),
            ("points 4\nglobal 0", "'count' is missing"),
            ("points 4\ncount 1", "'global' is missing"),
            ("points 4\npoints 4", "line 2: 'points' was given before"),
            ("count 65536", "line 1: '65536' is not a whole number"),
            ("points 256", "line 1: '256' is not a whole number"),
            ("kount 1", "line 1: 'kount' is not a keyword"),
            ("0 1 2", "line 1: '0 1 2' belongs to no keyword"),
            (
                "rows\n0 1\n0 1 2",
                "line 3: the row has 3 images for 2 points",
            ),
            (
                "generators\n1 1",
                "line 2: the generator names point 1 twice",
            ),
            ("rows\ngenerators", "line 2: there is one of"),
            ("rows 0 1", "line 1: '0 1' belongs on a line of its own"),
            ("rows\n0 1\npoints 3", "the rows have another length than 3"),
        ] {
            let told = read(text.as_bytes()).expect_err(text);
            assert!(told.starts_with(words), "{text}: {told}");
        }
    }

    #[test]
    fn the_fault_of_a_refused_package_is_told() {
        let told = |text: &str| fault(2, &read(text.as_bytes()).expect(text));
        assert_eq!(told("count 1\nglobal 0 1\ngenerators\n1 0"), None);
        for (text, words) in [
            (
                "points 2\ncount 1\nglobal 0",
                "the package has 8 bytes; with a global",
            ),
            (
                "points 2\ncount 1\nglobal 0 1\nrows",
                "the package has 0 full rows",
            ),
            (
                "points 21\ncount 1\nglobal 0 1",
                "the full set has 21 points",
            ),
            ("points 2\ncount 0\nglobal 0 1", "the count is 0"),
            (
                "points 2\ncount 1\nglobal 0 2",
                "global number 2 is not below 2",
            ),
            (
                "points 2\ncount 1\nglobal 1 1",
                "global number 1 stands twice",
            ),
            (
                "count 1\nglobal 0 1\nrows\n0 1\n0 0",
                "full row 1 names point 0 twice",
            ),
            (
                "count 1\nglobal 0 1\nrows\n1 0",
                "the first full row is not 0 1",
            ),
        ] {
            let fault = told(text).expect(text);
            assert!(fault.starts_with(words), "{text}: {fault}");
        }
        assert_eq!(
            fault(2, &[1, 0]).as_deref(),
            Some("the package has 2 bytes")
        );
    }
}
