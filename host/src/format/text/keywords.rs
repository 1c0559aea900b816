//! The keywords of the text form, each in one place: what it reads into a draft and
//! what is written of a job. `help/text.txt` tells people of them.

use faceting_register::job::{Job, RULE_VERSION, TOLERANCE_VERSION, VERSION};

use super::draft::{Draft, Wanted};
use super::values::{numbers, one_number, one_of, row, whole};
use crate::format::hex;
use crate::symmetry::Kind;

/// Reads what stands behind a keyword.
pub type Values = fn(&mut Draft, &str) -> Result<(), String>;

/// Reads a line below a keyword, with its number.
pub type Item = fn(&mut Draft, usize, &str) -> Result<(), String>;

/// A keyword, how its values are read, and how a job is written by it.
pub struct Keyword {
    /// The word itself.
    pub word: &'static str,
    /// For what stands behind the word; without this, nothing stands there.
    pub values: Option<Values>,
    /// For the lines below; without this, none belongs to it.
    pub item: Option<Item>,
    /// What is written of a job; nothing where it need not be said.
    pub write: fn(&Job) -> Option<Said>,
}

/// What is written of a job: behind the word, or on the lines below it.
pub enum Said {
    /// On the same line.
    Behind(String),
    /// A line each.
    Below(Vec<String>),
}

/// The keyword of that word.
pub fn find(word: &str) -> Option<&'static Keyword> {
    KEYWORDS.iter().find(|keyword| keyword.word == word)
}

/// Every keyword, in the order in which a job is written.
pub static KEYWORDS: [Keyword; 16] = [
    value(
        "version",
        |draft, text| put(&mut draft.job.version, whole(text)),
        |job| (!implied(job.version)).then(|| Said::behind(job.version)),
    ),
    value(
        "rank",
        |draft, text| put(&mut draft.rank, whole(text).map(Some)),
        |job| Some(Said::behind(job.rank)),
    ),
    value(
        "dimension",
        |draft, text| put(&mut draft.dimension, whole(text).map(Some)),
        |job| job.points.is_empty().then(|| Said::behind(job.dimension)),
    ),
    value(
        "min",
        |draft, text| put(&mut draft.job.min, one_number(text).map(Some)),
        |job| job.min.map(|min| Said::behind(decimal(min))),
    ),
    value(
        "max",
        |draft, text| put(&mut draft.job.max, one_number(text).map(Some)),
        |job| job.max.map(|max| Said::behind(decimal(max))),
    ),
    value(
        "limit",
        |draft, text| put(&mut draft.job.limit, whole(text).map(Some)),
        |job| job.limit.map(Said::behind),
    ),
    value(
        "tolerance",
        |draft, text| put(&mut draft.job.tolerance, one_number(text)),
        |job| (job.version >= TOLERANCE_VERSION).then(|| Said::behind(decimal(job.tolerance))),
    ),
    value(
        "rule",
        |draft, text| put(&mut draft.job.rule, whole(text)),
        |job| (job.version >= RULE_VERSION).then(|| Said::behind(job.rule)),
    ),
    value(
        "budget",
        |draft, text| put(&mut draft.job.budget, whole(text)),
        |job| Some(Said::behind(job.budget)),
    ),
    value(
        "offset",
        |draft, text| put(&mut draft.offset, numbers(text).map(Some)),
        |job| Some(Said::Behind(vector(&job.offset))),
    ),
    lines(
        "basis",
        |draft, line, text| push(&mut draft.basis, line, numbers(text)),
        |job| Some(Said::below(&job.basis, |vector_| vector(vector_))),
    ),
    lines(
        "points",
        |draft, line, text| push(&mut draft.points, line, numbers(text)),
        |job| Some(Said::below(&job.points, |point| vector(point))),
    ),
    lines(
        "rows",
        |draft, line, text| push(&mut draft.rows, line, row(text)),
        |job| Some(Said::below(&job.rows, |row| images(row))),
    ),
    lines(
        "generators",
        |draft, line, text| push(&mut draft.generators, line, row(text)),
        |_| None,
    ),
    value(
        "symmetry",
        |draft, text| put(&mut draft.symmetry, one_of(text, &SYMMETRIES).map(Some)),
        |_| None,
    ),
    Keyword {
        word: "bytes",
        values: Some(raw_bytes),
        item: Some(|draft, _, text| raw_bytes(draft, text)),
        write: |_| None,
    },
];

const SYMMETRIES: [(&str, Wanted); 3] = [
    ("full", Wanted::Found(Kind::Full)),
    ("turns", Wanted::Found(Kind::Turns)),
    ("none", Wanted::None),
];

/// Whether a version follows from the other keywords.
fn implied(version: u16) -> bool {
    [VERSION, TOLERANCE_VERSION, RULE_VERSION].contains(&version)
}

/// A keyword with values behind it.
const fn value(word: &'static str, values: Values, write: fn(&Job) -> Option<Said>) -> Keyword {
    Keyword {
        word,
        values: Some(values),
        item: None,
        write,
    }
}

/// A keyword with a vector or row on each line below it.
const fn lines(word: &'static str, item: Item, write: fn(&Job) -> Option<Said>) -> Keyword {
    Keyword {
        word,
        values: None,
        item: Some(item),
        write,
    }
}

fn put<T>(field: &mut T, read: Result<T, String>) -> Result<(), String> {
    *field = read?;
    Ok(())
}

fn push<T>(list: &mut Vec<(usize, T)>, line: usize, read: Result<T, String>) -> Result<(), String> {
    list.push((line, read?));
    Ok(())
}

fn raw_bytes(draft: &mut Draft, text: &str) -> Result<(), String> {
    let more = hex::read(&text.replace(char::is_whitespace, ""))?;
    draft.raw.extend(more);
    Ok(())
}

impl Said {
    fn behind(value: impl ToString) -> Said {
        Said::Behind(value.to_string())
    }

    fn below<T>(items: &[T], one: impl Fn(&T) -> String) -> Said {
        Said::Below(items.iter().map(one).collect())
    }
}

fn vector(vector: &[f64]) -> String {
    let words: Vec<String> = vector.iter().map(|&x| decimal(x)).collect();
    words.join(" ")
}

fn images(row: &[u8]) -> String {
    let words: Vec<String> = row.iter().map(u8::to_string).collect();
    words.join(" ")
}

/// The shortest decimal that reads back as the same float, or its bits.
fn decimal(x: f64) -> String {
    if x.is_finite() {
        format!("{x:?}")
    } else {
        format!("0x{:016x}", x.to_bits())
    }
}
