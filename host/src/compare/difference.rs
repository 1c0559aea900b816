//! Outcomes of the same cases: the first difference of each case in words.

use faceting_register::answer::place_of_word;
use faceting_register::Refusal;

use crate::cases::Outcome;

/// The first difference, or nothing where there is none.
pub fn difference(a: &Outcome, b: &Outcome) -> Option<String> {
    if a.kind != b.kind {
        return Some(format!("the kinds differ: {} and {}", a.kind, b.kind));
    }
    if a.code != b.code {
        return Some(format!(
            "A {}, B {}{}",
            result(a.code),
            result(b.code),
            also(a, b)
        ));
    }
    if a.buffer.len() != b.buffer.len() {
        let (a, b) = (a.buffer.len(), b.buffer.len());
        return Some(format!("A's answer buffer has {a} bytes, B's has {b}"));
    }
    first_byte(a, b).map(|at| in_buffer(a, b, at))
}

/// What a returned value says.
pub fn result(code: i64) -> String {
    match Refusal::from_code(code) {
        Some(refusal) => format!("refuses with {} ({})", refusal.number(), refusal.words()),
        None if code < 0 => format!("returns {code}, which is no refusal"),
        None => format!("answers with {code} bytes"),
    }
}

/// Where two answers of different length begin to differ.
fn also(a: &Outcome, b: &Outcome) -> String {
    if a.code < 0 || b.code < 0 {
        return String::new();
    }
    match first_byte(a, b) {
        Some(at) => format!("; first in {}", in_buffer(a, b, at)),
        None => String::new(),
    }
}

fn first_byte(a: &Outcome, b: &Outcome) -> Option<usize> {
    let same = |(x, y): (&u8, &u8)| x == y;
    a.buffer.iter().zip(&b.buffer).position(|pair| !same(pair))
}

fn in_buffer(a: &Outcome, b: &Outcome, at: usize) -> String {
    let used = usize::try_from(a.code).unwrap_or(0);
    let behind = if a.code < 0 {
        "after a refusal"
    } else {
        "behind the answer"
    };
    let word = at / 4;
    let words = [a, b].map(|side| {
        side.buffer
            .get(4 * word..)
            .and_then(|rest| rest.first_chunk())
    });
    match words {
        [Some(x), Some(y)] if at < used => {
            let [x, y] = [x, y].map(|four| u32::from_le_bytes(*four));
            let place = place_of_word(&a.buffer[..used.min(a.buffer.len())], word);
            format!("word {word}, {place}: A has {x}, B has {y}")
        }
        _ => {
            let (x, y) = (a.buffer[at], b.buffer[at]);
            format!("byte {at} {behind}: A has {x}, B has {y}")
        }
    }
}

/// An outcome as a stream gives it.
type Read = Result<Outcome, String>;

/// Goes through both sides in step. For each case that either has, gives the line
/// that is to be told of it, if there is a difference.
pub fn compare(
    a: impl Iterator<Item = Read>,
    b: impl Iterator<Item = Read>,
) -> impl Iterator<Item = Result<Option<String>, String>> {
    let (mut a, mut b) = (a.peekable(), b.peekable());
    std::iter::from_fn(move || {
        let next = [a.peek(), b.peek()];
        let number = next.into_iter().flatten().map(number_of).min()?;
        let here = |read: &Read| number_of(read) == number;
        Some(told(a.next_if(here), b.next_if(here)))
    })
}

/// What cannot be read comes first.
fn number_of(read: &Read) -> usize {
    read.as_ref().map_or(0, |outcome| outcome.number)
}

fn told(a: Option<Read>, b: Option<Read>) -> Result<Option<String>, String> {
    let (case, words) = match (a.transpose()?, b.transpose()?) {
        (Some(a), Some(b)) => {
            let words = difference(&a, &b);
            (a, words)
        }
        (Some(a), None) => (a, Some("only A has it".into())),
        (None, Some(b)) => (b, Some("only B has it".into())),
        (None, None) => return Ok(None),
    };
    let line = |words| format!("case {} ({}): {words}", case.number, case.kind);
    Ok(words.map(line))
}
