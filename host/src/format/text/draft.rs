//! A job as far as its text has been read, and the job that comes of it.

use std::collections::BTreeMap;

use faceting_register::{job, rows, Job};

use super::keywords::{find, Keyword};
use super::values::row_fault;
use crate::format::hints;
use crate::format::quote::quoted;
use crate::symmetry::{Kind, Symmetry};

/// The largest number of rows that job bytes can say.
const MOST_ROWS: usize = u16::MAX as usize;

/// What the keyword `symmetry` asks for.
#[derive(Clone, Copy)]
pub enum Wanted {
    /// The rows that the points' distances give.
    Found(Kind),
    /// The identity alone.
    None,
}

/// The lines of a text that the parts of a job stand on.
#[derive(Clone, Debug, Default)]
pub struct Lines {
    /// Of each keyword.
    pub keywords: BTreeMap<&'static str, usize>,
    /// Of each point.
    pub points: Vec<usize>,
    /// Of each basis vector.
    pub basis: Vec<usize>,
    /// Of each row that was written out.
    pub rows: Vec<usize>,
}

/// What a text gives.
pub struct Read {
    /// The job's bytes, or why there are none.
    pub job: Result<Vec<u8>, String>,
    /// The lines that its parts stand on.
    pub lines: Lines,
    /// The job before its symmetry was looked for, if it came so far.
    pub bare: Option<Job>,
    /// Which symmetries its rows are, where they were found.
    pub found: Option<Kind>,
}

impl Read {
    /// Nothing, and why.
    pub fn failed(reason: String) -> Read {
        Read {
            job: Err(reason),
            lines: Lines::default(),
            bare: None,
            found: None,
        }
    }
}

/// What was read so far; a line's number beside what is checked at the end.
pub struct Draft {
    /// What single values say; the other fields below go into it at the end.
    pub job: Job,
    /// Where it is not what the coordinates suggest.
    pub rank: Option<u8>,
    /// Where it was said.
    pub dimension: Option<u8>,
    /// Where it is not zero.
    pub offset: Option<Vec<f64>>,
    /// The vectors that were written out.
    pub basis: Vec<(usize, Vec<f64>)>,
    /// The points.
    pub points: Vec<(usize, Vec<f64>)>,
    /// Rows that are taken as they stand.
    pub rows: Vec<(usize, Vec<u8>)>,
    /// Rows that are to be closed under composition.
    pub generators: Vec<(usize, Vec<u8>)>,
    /// Rows that are to be found.
    pub symmetry: Option<Wanted>,
    /// Bytes that stand for the whole job.
    pub raw: Vec<u8>,
    keywords: BTreeMap<&'static str, usize>,
    section: Option<&'static Keyword>,
}

impl Draft {
    /// Nothing read yet.
    pub fn new() -> Draft {
        Draft {
            job: Job::usual(0, Vec::new()),
            rank: None,
            dimension: None,
            offset: None,
            basis: Vec::new(),
            points: Vec::new(),
            rows: Vec::new(),
            generators: Vec::new(),
            symmetry: None,
            raw: Vec::new(),
            keywords: BTreeMap::new(),
            section: None,
        }
    }

    /// Reads a line that is not empty.
    pub fn line(&mut self, number: usize, line: &str) -> Result<(), String> {
        let (word, values) = line.split_once(char::is_whitespace).unwrap_or((line, ""));
        let item = self.section.and_then(|keyword| keyword.item);
        match (find(word), item) {
            (Some(keyword), _) => self.keyword(keyword, number, values.trim()),
            (None, Some(item)) => match item(self, number, line) {
                Err(_) if is_word(word) && hints::of_number(word).is_none() => Err(unknown(word)),
                read => read,
            },
            (None, None) if is_word(word) => Err(unknown(word)),
            (None, None) => Err(format!("{} belongs to no keyword", quoted(line))),
        }
    }

    fn keyword(
        &mut self,
        keyword: &'static Keyword,
        number: usize,
        values: &str,
    ) -> Result<(), String> {
        let word = keyword.word;
        if self.keywords.insert(word, number).is_some() {
            return Err(format!("{} was given before", quoted(word)));
        }
        self.section = Some(keyword);
        match keyword.values {
            Some(read) => read(self, values),
            None if values.is_empty() => Ok(()),
            None => Err(format!("{} belongs on a line of its own", quoted(values))),
        }
    }

    fn has(&self, word: &str) -> bool {
        self.keywords.contains_key(word)
    }

    /// The job, and where its parts stand.
    pub fn finish(self) -> Read {
        let lines = self.lines();
        let symmetry_line = lines.keywords.get("symmetry").copied().unwrap_or(0);
        if self.has("bytes") {
            return match self.keywords.len() {
                1 => Read {
                    job: Ok(self.raw),
                    lines,
                    bare: None,
                    found: None,
                },
                _ => Read::failed("'bytes' goes with no other keyword".into()),
            };
        }
        let wanted = self.symmetry;
        let bare = match self.whole_job() {
            Ok(bare) => bare,
            Err(reason) => return Read::failed(reason),
        };
        let found = match wanted {
            Some(Wanted::Found(kind)) => Some(kind),
            _ => None,
        };
        let job = match found {
            Some(kind) => with_symmetry(&bare, kind)
                .map_err(|reason| format!("line {symmetry_line}: {reason}")),
            None => Ok(bare.clone()),
        };
        Read {
            job: job.map(|job| job.write()),
            lines,
            bare: Some(bare),
            found,
        }
    }

    fn lines(&self) -> Lines {
        let numbers = |list: &[(usize, Vec<f64>)]| list.iter().map(|(line, _)| *line).collect();
        Lines {
            keywords: self.keywords.clone(),
            points: numbers(&self.points),
            basis: numbers(&self.basis),
            rows: self.rows.iter().map(|(line, _)| *line).collect(),
        }
    }

    fn whole_job(mut self) -> Result<Job, String> {
        let dimension = self.full_dimension()?;
        let d = usize::from(dimension);
        let rank = self.rank.unwrap_or(dimension.saturating_add(1).min(4));
        if self.points.len() > u8::MAX.into() {
            return Err("there are more than 255 points".into());
        }
        let line = self.keywords.get("offset").copied().unwrap_or(0);
        let offset = self.offset.take().map(|offset| (line, offset));
        let offset = vectors_of(offset.into_iter().collect(), d, "the offset")?.pop();
        let basis = self.full_basis(rank, d)?;
        let rows = self.written_rows()?;
        Ok(Job {
            version: self.full_version()?,
            rank,
            dimension,
            offset: offset.unwrap_or_else(|| vec![0.0; d]),
            basis,
            rows,
            points: vectors_of(self.points, d, "the point")?,
            ..self.job
        })
    }

    /// The version that was said, or the least that has the keywords.
    fn full_version(&self) -> Result<u16, String> {
        let versions = [
            ("rule", job::RULE_VERSION),
            ("tolerance", job::TOLERANCE_VERSION),
        ];
        let newest = versions.into_iter().find(|(word, _)| self.has(word));
        match (self.job.version, newest) {
            (_, None) if !self.has("version") => Ok(job::VERSION),
            (_, Some((_, least))) if !self.has("version") => Ok(least),
            (said, Some((word, least))) if said < least => {
                Err(format!("version {said} has no {word}; leave 'version' out"))
            }
            (said, _) => Ok(said),
        }
    }

    fn full_basis(&mut self, rank: u8, dimension: usize) -> Result<Vec<Vec<f64>>, String> {
        let takes = usize::from(rank).checked_sub(1);
        let takes = takes.ok_or("rank 0 has no layout")?;
        if !self.has("basis") {
            return Ok(job::unit_vectors(takes, dimension));
        }
        let list = std::mem::take(&mut self.basis);
        let basis = vectors_of(list, dimension, "the basis vector")?;
        match basis.len() {
            got if got == takes => Ok(basis),
            got => Err(format!(
                "the basis has {got} vectors, rank {rank} takes {takes}"
            )),
        }
    }

    fn full_dimension(&self) -> Result<u8, String> {
        let first = self.points.first().map(|(_, point)| point.len());
        match (first, self.dimension) {
            (None, None) => Err("there is neither a point nor a dimension".into()),
            (None, Some(d)) => Ok(d),
            (Some(d), said) => {
                let d = u8::try_from(d).map_err(|_| "a point has more than 255 coordinates")?;
                match said {
                    Some(other) if other != d => Err(format!(
                        "the dimension is {other}, but points have {d} coordinates"
                    )),
                    _ => Ok(d),
                }
            }
        }
    }

    /// The rows as written, or what the generators make; the identity where there
    /// are neither.
    fn written_rows(&self) -> Result<Vec<Vec<u8>>, String> {
        let n = self.points.len();
        let sources = ["rows", "generators", "symmetry"].map(|word| (word, self.has(word)));
        let given: Vec<&str> = sources.iter().filter(|s| s.1).map(|s| s.0).collect();
        if let [first, second, ..] = given[..] {
            return Err(format!("'{first}' and '{second}' exclude each other"));
        }
        for (line, row) in self.generators.iter().chain(&self.rows) {
            if row.len() != n {
                let got = row.len();
                return Err(format!(
                    "line {line}: the row has {got} images for {n} points"
                ));
            }
        }
        if self.has("rows") {
            return few(self.rows.iter().map(|(_, row)| row.clone()).collect());
        }
        for (line, row) in &self.generators {
            if let Some(fault) = row_fault(row) {
                return Err(format!("line {line}: the generator {fault}"));
            }
        }
        let generators: Vec<Vec<u8>> = self.generators.iter().map(|(_, row)| row.clone()).collect();
        few(rows::closure(n, &generators, MOST_ROWS + 1))
    }
}

/// No more rows than can be said.
fn few(rows: Vec<Vec<u8>>) -> Result<Vec<Vec<u8>>, String> {
    match rows.len() > MOST_ROWS {
        true => Err(format!("there are more than {MOST_ROWS} rows")),
        false => Ok(rows),
    }
}

/// The job with the rows that its points give. One that is refused for its points
/// keeps the identity alone.
pub fn with_symmetry(job: &Job, kind: Kind) -> Result<Job, String> {
    let Some(symmetry) = Symmetry::of(job) else {
        return Ok(job.clone());
    };
    let rows = symmetry.group(kind).rows();
    let rows = rows.ok_or_else(|| symmetry.too_many())?;
    Ok(Job {
        rows,
        ..job.clone()
    })
}

fn is_word(word: &str) -> bool {
    word.starts_with(|letter: char| letter.is_alphabetic()) && !word.starts_with("sqrt")
}

fn unknown(word: &str) -> String {
    match word {
        "job" => "a text of several jobs begins with 'job'".into(),
        _ => match hints::of_keyword(word) {
            Some(near) => format!("{} is not a keyword; is '{near}' meant?", quoted(word)),
            None => format!("{} is not a keyword", quoted(word)),
        },
    }
}

fn vectors_of(
    list: Vec<(usize, Vec<f64>)>,
    dimension: usize,
    what: &str,
) -> Result<Vec<Vec<f64>>, String> {
    let checked = |(line, vector): (usize, Vec<f64>)| match vector.len() {
        got if got == dimension => Ok(vector),
        got => Err(format!(
            "line {line}: {what} has {got} coordinates instead of {dimension}"
        )),
    };
    list.into_iter().map(checked).collect()
}
