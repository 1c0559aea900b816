//! A catalogue as a table of values between commas: a line to a figure.

use crate::report::Report;

use super::number::number;
use crate::parts::names::words;

/// The columns. Price is in pence, and empty where there is no tariff or the rank has no
/// prices; entry and job say where the figure stood when the line was written.
pub const COLUMNS: [&str; 11] = [
    "set", "number", "points", "edges", "facets", "pieces", "closes", "parts", "price", "entry",
    "job",
];

/// The column of the set's name.
pub const SET: usize = 0;

/// The column of the number that lasts.
pub const NUMBER: usize = 1;

/// The column of the price.
pub const PRICE: usize = 8;

/// The column of the entry's place in the list.
pub const ENTRY: usize = 9;

/// The column of the job's hash.
pub const JOB: usize = 10;

/// The columns that may change while a figure stays what it is.
pub const MEASURED: std::ops::Range<usize> = 2..9;

/// A line, a value to a column.
pub type Line = Vec<String>;

/// The lines of a report.
pub fn lines(report: &Report) -> Vec<Line> {
    (0..report.answer.entries.len())
        .map(|e| line(report, e))
        .collect()
}

fn line(report: &Report, e: usize) -> Line {
    let [points, edges, facets] = report.answer.summaries[e];
    let look = &report.looks[e];
    let closes = if look.closes() { "yes" } else { "no" };
    vec![
        report.subject.name.clone(),
        number(&report.job, &report.answer.entries[e].figure),
        points.to_string(),
        edges.to_string(),
        facets.to_string(),
        look.pieces.to_string(),
        closes.into(),
        parts(report, e),
        report
            .price(e)
            .map_or_else(String::new, |pence| pence.to_string()),
        e.to_string(),
        report.source.hash.clone(),
    ]
}

/// The parts without letters, which change with the list.
fn parts(report: &Report, e: usize) -> String {
    let shapes = &report.parts.shapes;
    let part = |&(shape, count): &(usize, usize)| {
        let name = words(&shapes.facets[shapes.firsts[shape]], shapes);
        format!("{count} x {name}")
    };
    let mut parts: Vec<String> = report.parts.entries[e].counts.iter().map(part).collect();
    parts.sort();
    parts.join("; ")
}

/// The whole table, with its head.
pub fn write(lines: &[Line]) -> String {
    let head: Line = COLUMNS.map(String::from).to_vec();
    let row = |line: &Line| {
        let values: Vec<String> = line.iter().map(|value| quoted(value)).collect();
        values.join(",") + "\n"
    };
    std::iter::once(&head).chain(lines).map(row).collect()
}

fn quoted(value: &str) -> String {
    match value.contains([',', '"', '\n', '\r']) {
        true => format!("\"{}\"", value.replace('"', "\"\"")),
        false => value.into(),
    }
}

/// The lines of a table that has these columns, or what is wrong with it.
pub fn read(text: &str) -> Result<Vec<Line>, String> {
    let mut lines = Vec::new();
    let mut rest = text.strip_prefix('\u{feff}').unwrap_or(text);
    while !rest.is_empty() {
        let (line, behind) = first_line(rest).ok_or("a quotation mark is not closed")?;
        rest = behind;
        lines.push(line);
    }
    if lines.is_empty() || lines.remove(0) != COLUMNS {
        return Err("it has not the columns of a catalogue".into());
    }
    match lines.iter().position(|line| line.len() != COLUMNS.len()) {
        Some(i) => Err(format!("line {} has {} values", i + 2, lines[i].len())),
        None => Ok(lines),
    }
}

/// The values up to the first end of a line that is not quoted, and what follows.
fn first_line(text: &str) -> Option<(Line, &str)> {
    let (mut line, mut value, mut inside) = (Line::new(), String::new(), false);
    let mut letters = text.char_indices().peekable();
    while let Some((at, letter)) = letters.next() {
        match letter {
            '"' if inside && letters.next_if(|&(_, next)| next == '"').is_some() => value.push('"'),
            '"' => inside = !inside,
            ',' if !inside => line.push(std::mem::take(&mut value)),
            '\r' if !inside => {}
            '\n' if !inside => {
                line.push(value);
                return Some((line, &text[at + 1..]));
            }
            letter => value.push(letter),
        }
    }
    line.push(value);
    (!inside).then_some((line, ""))
}

#[cfg(test)]
mod tests {
    use super::*;

    #[test]
    fn what_is_written_is_read_back() {
        let mut odd: Line = vec!["x".to_string(); COLUMNS.len()];
        odd[0] = "a, \"b\"\nc".into();
        odd[8] = String::new();
        let lines = vec![odd.clone(), odd];
        assert_eq!(read(&write(&lines)), Ok(lines.clone()));
        assert_eq!(
            read(&write(&lines).replace('\n', "\r\n").replace("\r\nc", "\nc")),
            Ok(lines)
        );
        assert_eq!(read(&write(&[])), Ok(vec![]));
    }

    #[test]
    fn what_is_no_catalogue_is_told() {
        assert!(read("").is_err() && read("set,number\n").is_err());
        let head = write(&[]);
        assert_eq!(
            read(&format!("{head}a,b\n")),
            Err("line 2 has 2 values".into())
        );
        assert_eq!(
            read(&format!("{head}\"a")),
            Err("a quotation mark is not closed".into())
        );
    }
}
