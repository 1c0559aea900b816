//! What stands behind a keyword or on a line below it: numbers, rows, words.

use crate::format::expression::evaluate;
use crate::format::quote::quoted;

/// Values stand apart by blanks or commas that are not inside brackets.
fn values(text: &str) -> Vec<&str> {
    let mut depth = 0;
    let apart = |letter: char| {
        match letter {
            '(' => depth += 1,
            ')' => depth -= 1,
            _ => {}
        }
        depth <= 0 && (letter.is_whitespace() || letter == ',')
    };
    text.split(apart).filter(|part| !part.is_empty()).collect()
}

/// Numbers and expressions, any number of them.
pub fn numbers(text: &str) -> Result<Vec<f64>, String> {
    let values = values(text);
    let without_commas = text
        .split(',')
        .map(str::trim)
        .filter(|part| !part.is_empty());
    if has_decimal_comma(text) && without_commas.count() != values.len() {
        let words =
            "has both commas and blanks between numbers; a decimal has a point, 0.5 and not 0,5";
        return Err(format!("{} {words}", quoted(text)));
    }
    values.into_iter().map(evaluate).collect()
}

/// Just one number.
pub fn one_number(text: &str) -> Result<f64, String> {
    match numbers(text)?[..] {
        [number] => Ok(number),
        _ if has_decimal_comma(text) => Err(format!(
            "{} should be one number; a decimal has a point, 0.5 and not 0,5",
            quoted(text)
        )),
        _ => Err(format!("{} should be one number", quoted(text))),
    }
}

/// A comma between two digits, as a decimal has it in many countries.
fn has_decimal_comma(text: &str) -> bool {
    let is_digit = |byte: u8| byte.is_ascii_digit();
    let comma = |part: &[u8]| is_digit(part[0]) && part[1] == b',' && is_digit(part[2]);
    text.as_bytes().windows(3).any(comma)
}

/// The images of a row.
pub fn row(text: &str) -> Result<Vec<u8>, String> {
    if text.contains('(') {
        let words = "is no row: a row has the image of each point and no cycles in brackets";
        return Err(format!("{} {words}", quoted(text)));
    }
    values(text).into_iter().map(whole).collect()
}

/// Why a row is no permutation of the points, with the likely cause; nothing where
/// it is one.
pub fn row_fault(row: &[u8]) -> Option<String> {
    let points = row.len();
    let count = |v: u8| row.iter().filter(|&&image| image == v).count();
    let twice = row.iter().find(|&&image| count(image) > 1);
    let outside = row.iter().find(|&&image| usize::from(image) >= points);
    match (outside, twice) {
        (None, None) => None,
        (Some(_), None) if !row.contains(&0) && count(points as u8) == 1 => {
            Some("counts the points from 1; they count from 0, so take 1 from every number".into())
        }
        (Some(image), _) => {
            let last = points.saturating_sub(1);
            Some(format!(
                "names point {image}, and the points are 0 to {last}"
            ))
        }
        (None, Some(image)) => Some(format!("names point {image} twice")),
    }
}

/// One of some words.
pub fn one_of<T: Copy>(text: &str, known: &[(&str, T)]) -> Result<T, String> {
    let found = known.iter().find(|(word, _)| *word == text);
    found.map(|(_, value)| *value).ok_or_else(|| {
        let words: Vec<&str> = known.iter().map(|(word, _)| *word).collect();
        format!("{} should be one of: {}", quoted(text), words.join(", "))
    })
}

/// A whole number that its type can hold.
pub fn whole<T: std::str::FromStr + Bounded>(text: &str) -> Result<T, String> {
    let most = T::MOST;
    let read = text.parse();
    read.map_err(|_| format!("{} is not a whole number from 0 to {most}", quoted(text)))
}

/// A type of whole numbers, with its largest.
pub trait Bounded {
    /// The largest number.
    const MOST: u32;
}

impl Bounded for u8 {
    const MOST: u32 = u8::MAX as u32;
}

impl Bounded for u16 {
    const MOST: u32 = u16::MAX as u32;
}

impl Bounded for u32 {
    const MOST: u32 = u32::MAX;
}
