//! docs/SPECIFICATION.md and those who cite it. A section is cited by its number in
//! square brackets. Every definition names the section that it renders, every
//! section is named by a definition, and every section named anywhere is there.

use std::collections::BTreeSet;
use std::fs;
use std::path::{Path, PathBuf};

const PAGE: &str = include_str!("../../docs/SPECIFICATION.md");

/// The files that render the specification. The others of their folder are tables
/// that are evaluated against them.
const RENDERING: [&str; 17] = [
    "Lists",
    "Outcome",
    "Vectors",
    "Subspace",
    "Orbits",
    "Recursion",
    "Search",
    "Figures",
    "Faceting",
    "Job",
    "Demands",
    "Symmetry",
    "Batch",
    "Prices",
    "Noble",
    "NobleCalls",
    "Plain",
];

/// What a definition begins with.
const BEGINNINGS: [&str; 4] = ["unfoldable pub ", "abbrev pub ", "pub record ", "pub data "];

fn repository() -> PathBuf {
    Path::new(env!("CARGO_MANIFEST_DIR")).join("..")
}

fn read(path: &Path) -> String {
    fs::read_to_string(path).unwrap_or_else(|error| panic!("{}: {error}", path.display()))
}

fn definitions() -> PathBuf {
    repository().join("crates/definitions/specs")
}

/// More tables, which no edit of the definitions needs.
fn evaluated() -> PathBuf {
    repository().join("crates/evaluated/specs")
}

/// A chapter and a section in it.
type Section = (u32, u32);

/// The number "4.3".
fn section(text: &str) -> Option<Section> {
    let (chapter, number) = text.split_once('.')?;
    let digits = |part: &str| part.bytes().all(|byte| byte.is_ascii_digit());
    if !digits(chapter) || !digits(number) {
        return None;
    }
    Some((chapter.parse().ok()?, number.parse().ok()?))
}

/// The sections of the page, in order.
fn sections() -> Vec<Section> {
    let heads = PAGE.lines().filter_map(|line| line.strip_prefix("### "));
    let number = |head: &str| {
        let number = head.split(' ').next().and_then(section);
        number.unwrap_or_else(|| panic!("a section without a number: {head}"))
    };
    heads.map(number).collect()
}

/// The sections that a text cites: each "[4.3]".
fn cited(text: &str) -> impl Iterator<Item = Section> + '_ {
    let behind = text.split('[').skip(1);
    behind.filter_map(|rest| section(rest.split_once(']')?.0))
}

/// The comment right above line `at`, without the titles of parts of a file.
fn comment<'a>(lines: &[&'a str], at: usize) -> Vec<&'a str> {
    let above = lines[..at].iter().rev().map(|line| line.trim_start());
    let comment = above.take_while(|line| line.starts_with("--") && !line.starts_with("-- ----"));
    let mut comment: Vec<&str> = comment.collect();
    comment.reverse();
    comment
}

fn begins_definition(line: &str) -> bool {
    let line = line.trim_start();
    BEGINNINGS.iter().any(|start| line.starts_with(start))
}

/// All files of a folder and of those in it, but for what is built or hidden.
fn files(folder: &Path, found: &mut Vec<PathBuf>) {
    for entry in fs::read_dir(folder).expect("a folder") {
        let path = entry.expect("an entry").path();
        let name = path.file_name().unwrap_or_default().to_string_lossy();
        if name == "target" || name.starts_with('.') {
            continue;
        }
        if path.is_dir() {
            files(&path, found);
        } else {
            found.push(path);
        }
    }
}

#[test]
fn sections_are_numbered_in_order() {
    let mut last = (0, 0);
    for section in sections() {
        let next = [(last.0, last.1 + 1), (last.0 + 1, 1)];
        assert!(next.contains(&section), "{section:?} behind {last:?}");
        last = section;
    }
    let chapters = PAGE.lines().filter_map(|line| line.strip_prefix("## "));
    for (number, head) in chapters.enumerate() {
        let expected = format!("{} ", number + 1);
        assert!(
            head.starts_with(&expected),
            "chapter {}: {head}",
            number + 1
        );
    }
}

/// Each definition of a file: its first line, and the comment above it.
fn defined<'a>(lines: &[&'a str]) -> Vec<(&'a str, Vec<&'a str>)> {
    let places = (0..lines.len()).filter(|&at| begins_definition(lines[at]));
    places.map(|at| (lines[at], comment(lines, at))).collect()
}

#[test]
fn every_definition_begins_with_its_section() {
    for name in RENDERING {
        let text = read(&definitions().join(format!("{name}.antt")));
        let lines: Vec<&str> = text.lines().collect();
        for (line, comment) in defined(&lines) {
            let first = comment.first().and_then(|line| line.strip_prefix("-- ["));
            let first = first.and_then(|rest| section(rest.split(']').next()?));
            assert!(first.is_some(), "{name}: {line}");
        }
    }
}

#[test]
fn every_section_is_named_by_a_definition() {
    let mut named = BTreeSet::new();
    let mut specs = Vec::new();
    files(&definitions(), &mut specs);
    files(&evaluated(), &mut specs);
    for path in specs {
        let text = read(&path);
        let lines: Vec<&str> = text.lines().collect();
        for (_, comment) in defined(&lines) {
            named.extend(comment.into_iter().flat_map(cited));
        }
    }
    for section in sections() {
        assert!(named.contains(&section), "no definition names {section:?}");
    }
}

/// What a file says: of code its comments, of anything else the whole text.
fn prose(path: &Path, text: &str) -> String {
    let mark = match path.extension().and_then(|end| end.to_str()) {
        Some("rs" | "rt") => "//",
        Some("antt") => "--",
        Some("py") => "#",
        _ => return text.to_string(),
    };
    let comments = text.lines().filter_map(|line| line.split_once(mark));
    comments
        .map(|(_, comment)| format!("{comment}\n"))
        .collect()
}

#[test]
fn every_section_that_is_named_is_there() {
    let there: BTreeSet<Section> = sections().into_iter().collect();
    let mut everything = Vec::new();
    files(&repository(), &mut everything);
    let mut citing = 0;
    for path in everything {
        // What is not text cites nothing.
        let Ok(text) = fs::read_to_string(&path) else {
            continue;
        };
        for section in cited(&prose(&path, &text)) {
            citing += 1;
            assert!(there.contains(&section), "{}: {section:?}", path.display());
        }
    }
    assert!(citing > 200, "only {citing} citations were found");
}

/// The customer's paper is not in the repository. One page says where each of its
/// sections went; nothing else leans on it.
#[test]
fn nothing_leans_on_a_paper_that_is_not_here() {
    let paper = concat!("document", " 01");
    let mut everything = Vec::new();
    files(&repository(), &mut everything);
    for path in everything {
        let text = fs::read_to_string(&path).unwrap_or_default();
        let named = text.to_lowercase().contains(paper);
        let may = path.ends_with("docs/DECISIONS.md");
        assert!(!named || may, "{} names it", path.display());
    }
}
