//! The part of a job that a refusal is about: which number or row, on which line of
//! its text, and what to do there.

use faceting_register::bounds::{FARTHEST, LONGEST_BASIS, LONGEST_EDGE, TOLERANCES};
use faceting_register::job::is_identity;
use faceting_register::{Job, Refusal};

use super::text::{row_fault, Lines};

/// Where a job breaks a rule.
#[derive(Clone, Debug, PartialEq, Eq)]
pub struct Culprit {
    /// The part in words, behind its line where there is one.
    pub place: String,
    /// What to change, where that differs from what the refusal alone suggests.
    pub change: Option<String>,
}

/// The part of a job that is refused for a number or a row, the first in the bytes.
pub fn culprit(refusal: Refusal, job: &Job, lines: &Lines) -> Option<Culprit> {
    match refusal {
        Refusal::Number => number(job, lines),
        Refusal::Tolerance => {
            let (least, most) = TOLERANCES.into_inner();
            let fault = fault(job.tolerance, least, most)?;
            let words = format!("the tolerance {fault}");
            Some(at(lines.keywords.get("tolerance"), &words, None))
        }
        Refusal::Rule => {
            let words = format!("the rule is {}", job.rule);
            Some(at(lines.keywords.get("rule"), &words, None))
        }
        Refusal::Identity => {
            let first = job.rows.first().filter(|row| !is_identity(row))?;
            let images: Vec<String> = first.iter().map(u8::to_string).collect();
            let is = || format!("is {}", images.join(" "));
            let words = format!("the first row {}", row_fault(first).unwrap_or_else(is));
            Some(at(lines.rows.first(), &words, None))
        }
        Refusal::Permutation => {
            let mut faults = job.rows.iter().map(|row| row_fault(row)).enumerate();
            let (r, fault) = faults.find_map(|(r, fault)| Some((r, fault?)))?;
            Some(at(lines.rows.get(r), &format!("row {r} {fault}"), None))
        }
        _ => None,
    }
}

fn at(line: Option<&usize>, words: &str, change: Option<String>) -> Culprit {
    let place = match line {
        Some(line) => format!("line {line}: {words}"),
        None => words.into(),
    };
    Culprit { place, change }
}

/// The first number that is not finite or beyond its bound.
fn number(job: &Job, lines: &Lines) -> Option<Culprit> {
    let keyword = |word: &str| lines.keywords.get(word);
    let lengths = [("min", job.min), ("max", job.max)];
    let length = lengths.into_iter().find_map(|(word, length)| {
        let fault = fault(length?, 0.0, LONGEST_EDGE)?;
        let change = format!("give a length from 0 to 131,072, or leave '{word}' out");
        Some(at(keyword(word), &format!("{word} {fault}"), Some(change)))
    });
    let tolerance = || {
        let fault = fault(job.tolerance, f64::MIN, f64::MAX)?;
        let words = format!("the tolerance {fault}");
        Some(at(keyword("tolerance"), &words, change_of(&fault)))
    };
    let offset = || {
        let (place, fault) = within(&job.offset, FARTHEST)?;
        let words = format!("the {place} number of the offset {fault}");
        Some(at(keyword("offset"), &words, change_of(&fault)))
    };
    let basis = || {
        let unit = || Some("give basis vectors of length 1".into());
        vectors(
            &job.basis,
            LONGEST_BASIS,
            "basis vector",
            &lines.basis,
            unit,
        )
    };
    let points = || vectors(&job.points, FARTHEST, "point", &lines.points, || None);
    length
        .or_else(tolerance)
        .or_else(offset)
        .or_else(basis)
        .or_else(points)
}

fn vectors(
    vectors: &[Vec<f64>],
    bound: f64,
    what: &str,
    lines: &[usize],
    change: impl Fn() -> Option<String>,
) -> Option<Culprit> {
    let found = |(v, vector): (usize, &Vec<f64>)| {
        let (place, fault) = within(vector, bound)?;
        let words = format!("the {place} number of {what} {v} {fault}");
        Some(at(lines.get(v), &words, change_of(&fault).or_else(&change)))
    };
    vectors.iter().enumerate().find_map(found)
}

/// The first number of a vector that is not within a bound of zero: its place and
/// what is wrong with it.
fn within(vector: &[f64], bound: f64) -> Option<(&'static str, String)> {
    const PLACES: [&str; 4] = ["first", "second", "third", "fourth"];
    let fault = |(i, &x): (usize, &f64)| {
        let place = PLACES.get(i).copied().unwrap_or("last");
        Some((place, fault(x, -bound, bound)?))
    };
    vector.iter().enumerate().find_map(fault)
}

const NO_NUMBER: &str = "is not a number";
const INFINITE: &str = "is not finite";

fn fault(x: f64, least: f64, most: f64) -> Option<String> {
    if x.is_nan() {
        Some(NO_NUMBER.into())
    } else if x.is_infinite() {
        Some(INFINITE.into())
    } else if x < least {
        Some(format!("is {x}, below {least}"))
    } else if x > most {
        Some(format!("is {x}, above {most}"))
    } else {
        None
    }
}

/// Scaling helps a number that is too large, but not one that is none.
fn change_of(fault: &str) -> Option<String> {
    match fault {
        NO_NUMBER => Some("look for the root of a negative number, or 0/0".into()),
        INFINITE => Some("look for a division by zero".into()),
        _ => None,
    }
}
