//! docs/READING.md: each name that it cites stands in the file beside it. The crates stand in the order of the data, in
//! crates.txt and in README.md.

use std::path::{Path, PathBuf};

const PAGE: &str = include_str!("../../docs/READING.md");

/// Every "`NAME`, .. (`FILE`)" of the page: the names in front of a bracket and the
/// file in it.
fn cited() -> Vec<(&'static str, &'static str)> {
    let mut found = Vec::new();
    for line in paragraphs().lines() {
        for (at, _) in line.match_indices(" (`") {
            let Some(file) = line[at + 3..].split('`').next() else {
                continue;
            };
            if file.contains('/') {
                found.extend(names_before(&line[..at]).map(|name| (name, file)));
            }
        }
    }
    found
}

/// The page with each paragraph on one line, since a name may end the line before its
/// file.
fn paragraphs() -> &'static str {
    let lines: Vec<String> = PAGE
        .split("\n\n")
        .map(|paragraph| paragraph.replace('\n', " "))
        .collect();
    Box::leak(lines.join("\n").into_boxed_str())
}

/// The quoted names that end the text, with nothing but commas and 'and' between.
fn names_before(text: &'static str) -> impl Iterator<Item = &'static str> {
    let mut parts = text.rsplit('`');
    let mut names = Vec::new();
    let mut between = parts.next();
    while let (Some(gap), Some(name)) = (between, parts.next()) {
        if !matches!(gap, "" | ", " | " and ") {
            break;
        }
        names.push(name);
        between = parts.next();
    }
    names.into_iter()
}

/// Words that may stand before a declared name in Rattle, in its definitions and in
/// Rust.
const BEFORE: [&str; 9] = [
    "pub",
    "unfoldable",
    "abbrev",
    "record",
    "data",
    "fn",
    "extern",
    "\"C\"",
    "const",
];

/// Whether the line declares the name: it is the first word but for those above.
fn declares(line: &str, name: &str) -> bool {
    let mut words = line.split([' ', '(', ':']).filter(|word| !word.is_empty());
    words.find(|word| !BEFORE.contains(word)) == Some(name)
}

fn repository() -> PathBuf {
    Path::new(env!("CARGO_MANIFEST_DIR")).join("..")
}

#[test]
fn names_stand_where_the_page_says() {
    let cited = cited();
    assert!(cited.len() > 150, "only {} names were found", cited.len());
    for (name, file) in cited {
        let text = std::fs::read_to_string(repository().join(file));
        let text = text.unwrap_or_else(|error| panic!("{file}: {error}"));
        let declared = text.lines().any(|line| declares(line, name));
        assert!(declared, "{file} does not declare {name}");
    }
}

/// The crates in the order of crates.txt, each with what it leans on.
fn crates() -> Vec<(String, Vec<String>)> {
    let list = std::fs::read_to_string(repository().join("crates.txt"));
    let list = list.expect("the list of crates is there");
    let lines = list.lines().filter(|line| !line.starts_with('#'));
    lines
        .filter_map(|line| {
            let (name, below) = line.split_once(':')?;
            let name = name.split(' ').next()?.to_string();
            let below = below.split_whitespace().map(String::from).collect();
            Some((name, below))
        })
        .collect()
}

#[test]
fn every_crate_has_its_place_in_the_picture() {
    for (name, _) in crates() {
        // A program only calls what is in the picture.
        let program = repository()
            .join(format!("crates/{name}/src/main.rt"))
            .is_file();
        assert!(
            program || PAGE.contains(&name),
            "{name} is not in the picture"
        );
    }
}

#[test]
fn no_crate_leans_on_a_later_one() {
    let crates = crates();
    assert!(crates.len() > 60, "only {} crates", crates.len());
    for (place, (name, below)) in crates.iter().enumerate() {
        let later = crates[place..].iter().map(|(other, _)| other);
        for other in later {
            assert!(!below.contains(other), "{name} leans on {other}");
        }
    }
}

#[test]
fn the_front_page_has_the_crates_in_their_order() {
    let page = std::fs::read_to_string(repository().join("README.md"));
    let page = page.expect("README.md is there");
    let lines = page
        .lines()
        .filter_map(|line| line.strip_prefix("    crates/"));
    let mut listed = Vec::new();
    for line in lines {
        // Names stand before the first space that no comma precedes.
        for part in line.split(", ") {
            listed.extend(part.split(' ').next());
            if part.contains(' ') {
                break;
            }
        }
    }
    let crates = crates();
    let names: Vec<&str> = crates.iter().map(|(name, _)| name.as_str()).collect();
    assert_eq!(listed, names);
}
