//! The text form of a job, to be written by hand: reading with line numbers in
//! every error, and writing so that reading gives the same bytes.

mod draft;
mod keywords;
mod values;

use faceting_register::Job;

use super::frames::frame;
use super::hex;
use draft::Draft;
use keywords::{Said, KEYWORDS};

pub use draft::{with_symmetry, Lines, Read};
pub use values::{row, row_fault, whole};

/// The text form's rules, as `encode --help` prints them.
pub const RULES: &str = include_str!(concat!(env!("CARGO_MANIFEST_DIR"), "/help/text.txt"));

/// A line's number, and what is left of it without comment and blanks.
type Line<'a> = (usize, &'a str);

/// Job bytes, or the line and the reason why there are none.
pub type Encoded = Result<Vec<u8>, String>;

/// A job of a text.
pub struct Part<'a> {
    /// The name behind its keyword `job`; none where the text is a single job.
    pub name: Option<&'a str>,
    /// What was read of it.
    pub read: Read,
}

/// The keywords, in the order in which a job is written.
pub fn keywords() -> impl Iterator<Item = &'static str> {
    KEYWORDS.iter().map(|keyword| keyword.word)
}

/// The job bytes of a text, or those of all its jobs, each behind its length.
pub fn encode(text: &str) -> Encoded {
    let mut bytes = Vec::new();
    for part in encode_each(text) {
        match part.name {
            None => return part.read.job,
            Some(_) => bytes.extend(frame(&part.read.job?)?),
        }
    }
    Ok(bytes)
}

/// The jobs of a text one by one.
pub fn encode_each(text: &str) -> Vec<Part<'_>> {
    let lines: Vec<Line> = (1..)
        .zip(text.lines().map(content))
        .filter(|(_, line)| !line.is_empty())
        .collect();
    if !lines.first().is_some_and(begins_job) {
        let (name, read) = (None, encode_job(&lines));
        return vec![Part { name, read }];
    }
    lines
        .chunk_by(|_, next| !begins_job(next))
        .map(|lines| {
            let (number, line) = lines[0];
            let mut read = encode_job(&lines[1..]);
            let job = read.job.and_then(fitting_frame);
            read.job = job.map_err(|reason| format!("line {number}, {line}: {reason}"));
            let name = line.strip_prefix("job").map(str::trim);
            Part { name, read }
        })
        .collect()
}

/// A job in a file of jobs stands behind its length, which has 16 bits.
fn fitting_frame(job: Vec<u8>) -> Encoded {
    frame(&job).map(|_| job)
}

/// A line without its comment and the blanks around it.
pub fn content(line: &str) -> &str {
    line.split('#').next().unwrap_or("").trim()
}

fn begins_job((_, line): &Line) -> bool {
    line.split_whitespace().next() == Some("job")
}

fn encode_job(lines: &[Line]) -> Read {
    let mut draft = Draft::new();
    for &(number, line) in lines {
        if let Err(reason) = draft.line(number, line) {
            return Read::failed(format!("line {number}: {reason}"));
        }
    }
    draft.finish()
}

/// The text of job bytes: by keywords where that gives the same bytes again, else
/// raw. A vector or row without numbers, say, would be an empty line.
pub fn decode(bytes: &[u8]) -> String {
    let by_keywords = Job::read(bytes).map(|job| decode_job(&job));
    let exact = |text: &String| encode(text).is_ok_and(|again| again == bytes);
    by_keywords
        .filter(exact)
        .unwrap_or_else(|| decode_raw(bytes))
}

fn decode_raw(bytes: &[u8]) -> String {
    let line = |part: &[u8]| format!("{}\n", hex::write(part));
    let lines: String = bytes.chunks(32).map(line).collect();
    format!("# keywords cannot say these bytes\nbytes\n{lines}")
}

fn decode_job(job: &Job) -> String {
    let mut text = String::new();
    for keyword in &KEYWORDS {
        let word = keyword.word;
        match (keyword.write)(job) {
            None => {}
            Some(Said::Behind(values)) => text.push_str(&format!("{word} {values}\n")),
            Some(Said::Below(lines)) => {
                let lines: String = lines.iter().map(|line| format!("{line}\n")).collect();
                text.push_str(&format!("{word}\n{lines}"));
            }
        }
    }
    text
}
