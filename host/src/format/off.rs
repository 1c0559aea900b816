//! OFF files, as programs that draw polyhedra write them: the points are taken, and
//! faces and colours left aside.

use super::expression::evaluate;
use super::quote::quoted;
use super::text::content;

/// The points of a file, and their lines.
pub struct Off {
    /// Point by point.
    pub points: Vec<Vec<f64>>,
    /// The line of each.
    pub lines: Vec<usize>,
}

/// A line's number and its words.
type Words<'a> = (usize, Vec<&'a str>);

/// What the first word says: how many coordinates a point has, if it says so, and
/// whether more numbers than these may follow.
struct Head {
    dimension: Option<usize>,
    more: bool,
}

/// Whether a text is such a file.
pub fn is_off(text: &str) -> bool {
    let first = text.lines().map(content).find(|line| !line.is_empty());
    let word = first.and_then(|line| line.split_whitespace().next());
    word.and_then(head).is_some()
}

/// The head's word: OFF, with 4, n or another number of coordinates in front, and
/// before these ST, C and N for what stands behind a point's coordinates.
fn head(word: &str) -> Option<Head> {
    let mut front = word.strip_suffix("OFF")?;
    let mut more = false;
    for sign in ["ST", "C", "N"] {
        if let Some(behind) = front.strip_prefix(sign) {
            (front, more) = (behind, true);
        }
    }
    let dimension = match front {
        "" => Some(3),
        "n" => None,
        digits => Some(digits.parse().ok()?),
    };
    Some(Head { dimension, more })
}

/// The points, or the line and the reason why there are none.
pub fn read(text: &str) -> Result<Off, String> {
    let words = |line| content(line).split_whitespace().collect();
    let numbered = (1..).zip(text.lines().map(words));
    let mut lines: Vec<Words> = numbered
        .filter(|(_, words): &Words| !words.is_empty())
        .collect();
    let head = match lines.first().and_then(|(_, words)| head(words[0])) {
        Some(head) => {
            take(&mut lines);
            head
        }
        None => Head {
            dimension: Some(3),
            more: false,
        },
    };
    let dimension = match head.dimension {
        Some(dimension) => dimension,
        None => count(take(&mut lines), "the number of coordinates")?,
    };
    let mut counts = lines.into_iter();
    let first = counts.next().map(|(line, words)| (line, words[0]));
    let points = count(first, "the number of points")?;
    vertices(counts.take(points).collect(), points, dimension, head.more)
}

/// The first word that is left, with its line.
fn take<'a>(lines: &mut Vec<Words<'a>>) -> Option<(usize, &'a str)> {
    let (line, words) = lines.first_mut()?;
    let taken = (*line, words.remove(0));
    if words.is_empty() {
        lines.remove(0);
    }
    Some(taken)
}

fn count(word: Option<(usize, &str)>, what: &str) -> Result<usize, String> {
    let (line, word) = word.ok_or_else(|| format!("the file ends before {what}"))?;
    let wrong = |_| format!("line {line}: {} should be {what}", quoted(word));
    word.parse().map_err(wrong)
}

fn vertices(lines: Vec<Words>, points: usize, d: usize, more: bool) -> Result<Off, String> {
    if lines.len() < points {
        let got = lines.len();
        return Err(format!("the file ends after {got} of {points} points"));
    }
    let vertex = |(line, words): &Words| {
        let got = words.len();
        if got < d || (got > d && !more) {
            let words = format!("line {line}: the point has {got} coordinates instead of {d}");
            return Err(match got {
                4 => format!("{words}; a file of four begins with 4OFF"),
                _ => words,
            });
        }
        let numbers: Result<Vec<f64>, String> =
            words[..d].iter().map(|word| evaluate(word)).collect();
        numbers.map_err(|reason| format!("line {line}: {reason}"))
    };
    Ok(Off {
        points: lines.iter().map(vertex).collect::<Result<_, String>>()?,
        lines: lines.iter().map(|(line, _)| *line).collect(),
    })
}
