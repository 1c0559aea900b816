//! Files that people hand to the register: a vertex set in the text form, several
//! of them in one text, an OFF file, or a job's bytes.

use faceting_register::{job, Job, Refusal};

use crate::format::culprit::{culprit, Culprit};
use crate::format::text::{self, content, with_symmetry, Encoded, Lines, Read};
use crate::format::{letters, off};
use crate::report::page::Subject;
use crate::symmetry::{Kind, Symmetry};

/// How the names of files end that are taken for vertex sets.
pub const ENDINGS: [&str; 3] = ["txt", "job", "off"];

/// What the answer will be about, and the job; or why there is none.
pub struct VertexSet {
    /// What the page will be about.
    pub subject: Subject,
    /// Its own name in a text of several sets.
    pub part: Option<String>,
    /// The job's bytes, or why there are none.
    pub job: Encoded,
    lines: Lines,
    bare: Option<Job>,
}

impl VertexSet {
    /// A file that gives no job, and why.
    pub fn bad(name: &str, error: String) -> VertexSet {
        vertex_set(name, None, None, Read::failed(error))
    }

    /// The job as a value, if its bytes are laid out as one.
    pub fn read_job(&self) -> Option<Job> {
        self.job.as_ref().ok().and_then(|job| Job::read(job))
    }

    /// The symmetries that the points have, whatever rows the set asks for.
    pub fn symmetry(&self) -> Option<Symmetry> {
        let job = self.bare.clone().or_else(|| self.read_job());
        Symmetry::of(&job?)
    }

    /// The part of the set that it is refused for, where that is one.
    pub fn culprit(&self, refusal: Refusal) -> Option<Culprit> {
        culprit(refusal, &self.read_job()?, &self.lines)
    }
}

/// The sets of a file, at least one.
pub fn read(name: &str, bytes: &[u8]) -> Vec<VertexSet> {
    if bytes.starts_with(job::MARK) {
        let read = Read {
            job: Ok(bytes.to_vec()),
            lines: Lines::default(),
            bare: None,
            found: None,
        };
        return vec![vertex_set(name, None, None, read)];
    }
    let words = match letters::text(bytes) {
        Ok(words) => words,
        Err(error) => return vec![VertexSet::bad(name, error)],
    };
    if off::is_off(words) || name.to_lowercase().ends_with(".off") {
        return vec![read_off(name, words)];
    }
    text::encode_each(words)
        .into_iter()
        .map(|part| match part.name {
            None => vertex_set(name, None, about(words), part.read),
            own => vertex_set(name, own, None, part.read),
        })
        .collect()
}

/// An OFF file cannot name a symmetry, so its points have the one that is found in
/// them: all of it, or the turns where all of it is too much. The page says so.
fn read_off(name: &str, words: &str) -> VertexSet {
    let off = match off::read(words) {
        Ok(off) if off.points.len() <= u8::MAX.into() => off,
        Ok(_) => return VertexSet::bad(name, "there are more than 255 points".into()),
        Err(error) => return VertexSet::bad(name, error),
    };
    let dimension = off.points.first().map_or(0, Vec::len);
    let bare = Job::usual((dimension as u8).saturating_add(1).min(4), off.points);
    let found = [Kind::Full, Kind::Turns].map(|kind| (with_symmetry(&bare, kind), kind));
    let [full, turns] = found;
    let (job, kind) = if full.0.is_ok() { full } else { turns };
    let comment = words.lines().find_map(comment).unwrap_or("Points");
    let about = format!("{} (from an OFF file).", comment.trim_end_matches('.'));
    let read = Read {
        job: job.map(|job| job.write()),
        lines: Lines {
            points: off.lines,
            ..Lines::default()
        },
        bare: Some(bare),
        found: Some(kind),
    };
    vertex_set(name, None, Some(about), read)
}

/// Whether a file is somebody's vertex set, be it in order or not: what is never to
/// be written over. Text of two bytes to a letter counts too.
pub fn is_one(bytes: &[u8]) -> bool {
    let letters: Vec<u8> = bytes.iter().copied().filter(|&byte| byte != 0).collect();
    let text = String::from_utf8_lossy(&letters);
    bytes.starts_with(job::MARK) || off::is_off(&text) || text.lines().any(opens_section)
}

/// Lines that a vertex set has, and no page, answer or JSON.
fn opens_section(line: &str) -> bool {
    let line = content(line);
    let hex = |rest: &str| rest.chars().all(|c| c == ' ' || c.is_ascii_hexdigit());
    ["points", "rows", "generators"].contains(&line) || line.strip_prefix("bytes").is_some_and(hex)
}

fn vertex_set(file: &str, part: Option<&str>, about: Option<String>, read: Read) -> VertexSet {
    let Read {
        job,
        lines,
        bare,
        found,
    } = read;
    let rank = job.as_ref().ok().map(|job| job::rank_of(job));
    let name = match part {
        None => file.into(),
        Some(part) => format!("{file}, {part}"),
    };
    let subject = Subject {
        name: printable(&name),
        about: about.as_deref().map(printable),
        rank: rank.unwrap_or(0),
        found,
    };
    VertexSet {
        subject,
        part: part.map(printable),
        job,
        lines,
        bare,
    }
}

/// What a writer says of a set: the comment that begins its text.
fn about(text: &str) -> Option<String> {
    text.lines().next().and_then(comment).map(str::to_string)
}

/// What a line says that is a comment.
fn comment(line: &str) -> Option<&str> {
    let words = line.trim().strip_prefix('#')?.trim();
    (!words.is_empty()).then_some(words)
}

/// No letter of a name or a comment moves a terminal's cursor.
fn printable(text: &str) -> String {
    let shown = |letter: char| if letter.is_control() { '?' } else { letter };
    text.chars().map(shown).collect()
}
