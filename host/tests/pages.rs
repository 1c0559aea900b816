//! The recorded pages of examples/: each engine that is there must give the same.
//!
//! With RECORD_PAGES=1 the original's pages are written instead of compared.

mod common;

use std::collections::BTreeSet;
use std::path::{Path, PathBuf};

use faceting_register::plain::plain;
use faceting_register::request::{ask, LONGEST};
use faceting_register::{Engine, Job, Stop};
use facetings_host::format::vertex_set::{self, VertexSet};
use facetings_host::report::page::page;
use facetings_host::report::{advice, Report, Source};

use common::place::names;
use common::ways::ways;

fn folder() -> PathBuf {
    Path::new(env!("CARGO_MANIFEST_DIR")).join("../examples")
}

/// The names, without this ending, of the files in a folder that have it.
fn ending(ending: &str, folder: &Path) -> BTreeSet<String> {
    let stem = |name: String| name.strip_suffix(ending).map(str::to_string);
    names(folder).into_iter().filter_map(stem).collect()
}

/// How the files of vertex sets end.
const ENDINGS: [&str; 2] = [".txt", ".off"];

fn examples() -> BTreeSet<String> {
    let with = |end: &&str| ending(end, &folder());
    ENDINGS.iter().flat_map(with).collect()
}

fn read(place: &Path) -> String {
    std::fs::read_to_string(place).unwrap_or_else(|error| panic!("{place:?}: {error}"))
}

fn example(name: &str) -> VertexSet {
    let files = ENDINGS.map(|end| format!("{name}{end}"));
    let mut there = files
        .into_iter()
        .filter(|file| folder().join(file).is_file());
    let file = there.next().expect("the example is there");
    assert_eq!(there.next(), None, "two examples would have one page");
    let text = read(&folder().join(&file));
    let mut sets = vertex_set::read(&file, text.as_bytes());
    assert_eq!(sets.len(), 1, "{file} holds one set");
    sets.remove(0)
}

/// The page, or the line that a refused set gets in its place.
fn result(engine: &mut dyn Engine, set: &VertexSet) -> String {
    let name = &set.subject.name;
    let job = set.job.as_ref().unwrap_or_else(|e| panic!("{name}: {e}"));
    match ask(engine, job, LONGEST) {
        Ok(bytes) => {
            // The recorded pages are the register's; both engines must come to them.
            let source = Source::of("register", job);
            let asked = Job::read(job).expect("an answered job can be read");
            let plain = plain(engine, job).expect("an answered job has plain entries");
            let report = Report::of(&set.subject, source, asked, &bytes, Some(plain));
            let report = report.expect("the answer is laid out as one");
            assert_eq!(report.length, bytes.len());
            page(&report)
        }
        Err(Stop::Refused(refusal)) => {
            let culprit = set.culprit(refusal);
            format!("{name}: {}\n", advice::line(refusal, culprit.as_ref()))
        }
        Err(Stop::Broken(words)) => panic!("{name}: {words}"),
    }
}

#[test]
fn every_example_has_its_recorded_page() {
    let pages = folder().join("pages");
    let record = std::env::var_os("RECORD_PAGES").is_some();
    for mut way in ways() {
        for name in examples() {
            let found = result(way.engine.as_mut(), &example(&name));
            let place = pages.join(format!("{name}.page"));
            if record && way.option == ["--original"] {
                std::fs::write(&place, &found).expect("pages can be written");
            }
            assert_eq!(found, read(&place), "{name} by {}", way.name);
        }
    }
}

#[test]
fn examples_and_pages_belong_together() {
    let examples = examples();
    assert_eq!(examples, ending(".page", &folder().join("pages")));
    assert!(examples.len() >= 20);
}

#[test]
fn readme_has_the_number_of_examples() {
    let readme = read(&folder().join("../README.md"));
    let words = format!("`examples/` has {} vertex sets", examples().len());
    assert!(readme.contains(&words), "{words}");
}

#[test]
fn an_example_says_what_it_shows_and_a_refused_one_says_so() {
    for name in examples() {
        let about = example(&name).subject.about;
        let about = about.unwrap_or_else(|| panic!("{name} begins with no comment"));
        assert!(
            about.ends_with('.') && !about.contains(". "),
            "{name}: {about}"
        );
        let recorded = read(&folder().join(format!("pages/{name}.page")));
        let refused = recorded.starts_with(&format!("{name}.txt: refused "));
        assert_eq!(refused, about.contains("refused"), "{name}: {about}");
    }
}
