//! Cases and results as lines of text: what is put to an engine, and what it
//! gave back. A buffer is written as its words in hex, without the zeros at its
//! end, which the room tells.

use std::fmt;
use std::io::{BufRead, Lines};
use std::marker::PhantomData;
use std::str::FromStr;

use faceting_register::request::LONGEST;

use crate::format::hex;
use crate::format::quote::quoted;

/// The first line of a file of cases.
pub const CASES_HEAD: &str = "facetings cases 1";
/// The first line of a file of results.
pub const RESULTS_HEAD: &str = "facetings results 1";

/// No buffer is longer, so that no line of a file can ask for all memory.
const MOST_ROOM: usize = LONGEST;

/// Nor is it so much longer or shorter than the answer.
const MOST_MORE: isize = 1 << 20;

/// The length of the answer buffer.
#[derive(Clone, Copy, Debug, PartialEq, Eq)]
pub enum Room {
    /// So many bytes.
    Bytes(usize),
    /// As long as the answer, and so much longer or shorter.
    Fit(isize),
}

/// What is put to an engine.
#[derive(Clone, Debug, PartialEq, Eq)]
pub struct Case {
    /// Its number, ascending in a file.
    pub number: usize,
    /// The seed that it alone depends on.
    pub seed: u64,
    /// The name of its kind.
    pub kind: String,
    /// The length of the workspace.
    pub workspace: usize,
    /// The length of the answer buffer.
    pub room: Room,
    /// The job's bytes, whole or damaged.
    pub job: Vec<u8>,
}

/// What an engine gave back for a case.
#[derive(Clone, Debug, PartialEq, Eq)]
pub struct Outcome {
    /// The number of its case.
    pub number: usize,
    /// The kind of its case.
    pub kind: String,
    /// What the call returned.
    pub code: i64,
    /// The whole answer buffer at exit.
    pub buffer: Vec<u8>,
}

impl fmt::Display for Room {
    fn fmt(&self, f: &mut fmt::Formatter<'_>) -> fmt::Result {
        match self {
            Room::Bytes(bytes) => write!(f, "{bytes}"),
            Room::Fit(more) => write!(f, "fit{more:+}"),
        }
    }
}

impl FromStr for Room {
    type Err = String;

    fn from_str(text: &str) -> Result<Self, String> {
        match text.strip_prefix("fit").map(str::parse) {
            Some(Ok(more)) if (-MOST_MORE..MOST_MORE).contains(&more) => Ok(Room::Fit(more)),
            Some(_) => Err(format!("{} is no length of a buffer", quoted(text))),
            None => parse_room(text).map(Room::Bytes),
        }
    }
}

impl fmt::Display for Case {
    fn fmt(&self, f: &mut fmt::Formatter<'_>) -> fmt::Result {
        let Case {
            number,
            seed,
            kind,
            workspace,
            room,
            job,
        } = self;
        let job = hex::write(job);
        write!(f, "{number} {seed} {kind} {workspace} {room} x{job}")
    }
}

impl FromStr for Case {
    type Err = String;

    fn from_str(line: &str) -> Result<Self, String> {
        let [number, seed, kind, workspace, room, job] = fields(line)?;
        Ok(Case {
            number: parse(number, "case number")?,
            seed: parse(seed, "seed")?,
            kind: kind.into(),
            workspace: parse(workspace, "workspace length")?,
            room: room.parse()?,
            job: hex::read(
                job.strip_prefix('x')
                    .ok_or("the job does not begin with x")?,
            )?,
        })
    }
}

impl fmt::Display for Outcome {
    fn fmt(&self, f: &mut fmt::Formatter<'_>) -> fmt::Result {
        let Outcome {
            number,
            kind,
            code,
            buffer,
        } = self;
        let room = buffer.len();
        let words = write_words(buffer);
        write!(f, "{number} {kind} {code} {room} {words}")
    }
}

impl FromStr for Outcome {
    type Err = String;

    fn from_str(line: &str) -> Result<Self, String> {
        let [number, kind, code, room, words] = fields(line)?;
        Ok(Outcome {
            number: parse(number, "case number")?,
            kind: kind.into(),
            code: parse(code, "result")?,
            buffer: read_words(words, parse_room(room)?)?,
        })
    }
}

fn parse_room(text: &str) -> Result<usize, String> {
    let room = text.parse().ok().filter(|&room| room <= MOST_ROOM);
    room.ok_or_else(|| format!("{} is no length of a buffer", quoted(text)))
}

fn fields<const N: usize>(line: &str) -> Result<[&str; N], String> {
    let fields: Vec<&str> = line.split(' ').collect();
    let got = fields.len();
    fields
        .try_into()
        .map_err(|_| format!("the line has {got} fields instead of {N}"))
}

fn parse<T: FromStr>(text: &str, what: &str) -> Result<T, String> {
    text.parse()
        .map_err(|_| format!("{} is no {what}", quoted(text)))
}

/// `w` and the words in hex, `.` between them; a last piece that is shorter than
/// a word follows behind `+`.
fn write_words(buffer: &[u8]) -> String {
    let used = buffer
        .iter()
        .rposition(|&byte| byte != 0)
        .map_or(0, |last| last + 1);
    let whole = buffer.len() / 4;
    let (words, tail) = buffer.split_at(4 * whole.min(used.div_ceil(4)));
    let word = |four: &[u8]| {
        format!(
            "{:x}",
            four.iter().rfold(0u32, |w, &b| w << 8 | u32::from(b))
        )
    };
    let words: Vec<String> = words.chunks_exact(4).map(word).collect();
    let tail = match used > 4 * whole {
        true => format!("+{}", hex::write(tail)),
        false => String::new(),
    };
    format!("w{}{tail}", words.join("."))
}

fn read_words(text: &str, room: usize) -> Result<Vec<u8>, String> {
    let text = text
        .strip_prefix('w')
        .ok_or("the words do not begin with w")?;
    let (words, tail) = text.split_once('+').unwrap_or((text, ""));
    let mut buffer = Vec::new();
    for word in words.split('.').filter(|word| !word.is_empty()) {
        let word =
            u32::from_str_radix(word, 16).map_err(|_| format!("{} is no word", quoted(word)))?;
        buffer.extend(word.to_le_bytes());
    }
    buffer.extend(hex::read(tail)?);
    if buffer.len() > room {
        return Err(format!(
            "there are more words than a buffer of {room} bytes holds"
        ));
    }
    buffer.resize(room, 0);
    Ok(buffer)
}

/// The lines of a file behind its head, one item each, read as they are asked for.
/// Numbers of cases ascend. An error names the line, and ends the stream.
pub struct Stream<T> {
    lines: Lines<Box<dyn BufRead>>,
    line: usize,
    latest: Option<usize>,
    items: PhantomData<T>,
}

/// What has the number of a case.
pub trait Numbered {
    /// The number of the case.
    fn number(&self) -> usize;
}

impl Numbered for Case {
    fn number(&self) -> usize {
        self.number
    }
}

impl Numbered for Outcome {
    fn number(&self) -> usize {
        self.number
    }
}

impl<T: FromStr<Err = String> + Numbered> Stream<T> {
    /// The items of a file, whose first line must be that head.
    pub fn open(file: impl BufRead + 'static, head: &str) -> Result<Self, String> {
        let file: Box<dyn BufRead> = Box::new(file);
        let mut lines = file.lines();
        match lines.next() {
            Some(Ok(line)) if line == head => Ok(Self {
                lines,
                line: 1,
                latest: None,
                items: PhantomData,
            }),
            Some(Err(error)) => Err(error.to_string()),
            _ => Err(format!("line 1: expected '{head}'")),
        }
    }

    fn item(&mut self, line: &str) -> Result<T, String> {
        let item: T = line.parse()?;
        if self.latest >= Some(item.number()) {
            return Err("the numbers of cases do not ascend".into());
        }
        self.latest = Some(item.number());
        Ok(item)
    }
}

impl<T: FromStr<Err = String> + Numbered> Iterator for Stream<T> {
    type Item = Result<T, String>;

    fn next(&mut self) -> Option<Self::Item> {
        let line = self.lines.next()?.map_err(|error| error.to_string());
        self.line += 1;
        let item = line.and_then(|line| self.item(&line));
        Some(item.map_err(|reason| format!("line {}: {reason}", self.line)))
    }
}
