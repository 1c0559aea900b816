//! docs/SPECIFICATION.md [1.6]: jobs with an entry whose figure does not close in
//! itself, each held to the answer of the original.

mod common;

use std::collections::BTreeMap;

use common::{answer, job, oracle};
use faceting_register::answer::{Answer, Figure};
use faceting_register::job::accept;

const PAGE: &str = include_str!("../../docs/SPECIFICATION.md");
const SECTION: &str = "### 1.6 ";

/// A row of the table.
struct Line {
    missing: &'static str,
    text: String,
    entry: Vec<(u32, u32)>,
    facets: [usize; 4],
}

/// The vectors "(..) (..)", each as the text between its brackets.
fn brackets(cell: &'static str) -> impl Iterator<Item = &'static str> {
    let behind = cell.split('(').skip(1);
    behind.map(|rest| rest.split(')').next().unwrap_or_default())
}

/// Rows of digits, with blanks between the numbers.
fn rows(cell: &str) -> String {
    let spaced = |row: &str| {
        row.chars()
            .map(|digit| format!("{digit} "))
            .collect::<String>()
    };
    let rows = cell.trim_matches(['⟨', '⟩']).split(' ');
    let keyword = if cell.starts_with('⟨') {
        "generators"
    } else {
        "rows"
    };
    rows.fold(format!("{keyword}\n"), |text, row| {
        text + &spaced(row) + "\n"
    })
}

fn line(cells: [&'static str; 5]) -> Line {
    let [missing, points, row_digits, entry, facets] = cells;
    let points: String = brackets(points).map(|point| format!("{point}\n")).collect();
    let pair = |text: &str| {
        let (orbit, facet) = text.split_once(',').expect("a pair");
        (
            orbit.parse().expect("an orbit"),
            facet.parse().expect("a facet"),
        )
    };
    let facets: Vec<usize> = facets
        .split(' ')
        .map(|n| n.parse().expect("a number"))
        .collect();
    Line {
        missing,
        text: format!("points\n{points}{}", rows(row_digits)),
        entry: brackets(entry).map(pair).collect(),
        facets: facets.try_into().expect("four numbers"),
    }
}

/// The table of the section, without its head.
fn table() -> Vec<Line> {
    let (_, section) = PAGE.split_once(SECTION).expect("the section");
    let section = section.split("\n##").next().unwrap_or_default();
    let cells = |row: &'static str| -> Option<[&'static str; 5]> {
        let cells: Vec<&str> = row
            .strip_prefix("| ")?
            .strip_suffix(" |")?
            .split(" | ")
            .collect();
        cells.try_into().ok()
    };
    section
        .lines()
        .filter_map(cells)
        .skip(1)
        .map(line)
        .collect()
}

/// How many ridges of a figure lie in one facet, in two, in three, in more.
fn ridges_by_facets(figure: &Figure) -> [usize; 4] {
    let facets = &figure.ranks[figure.ranks.len() - 2];
    let mut times: BTreeMap<u32, usize> = BTreeMap::new();
    for &ridge in facets.iter().flatten() {
        *times.entry(ridge).or_default() += 1;
    }
    let mut counts = [0; 4];
    for many in times.into_values() {
        counts[many.min(4) - 1] += 1;
    }
    counts
}

/// Whether the rows are closed under composition.
fn rows_close(text: &str) -> bool {
    let job = accept(&job(text), common::WORKSPACE);
    job.is_ok_and(|job| job.rows_closed())
}

/// Whether the summary counts as many facets as the counts of the list add up to.
fn facets_are_counted(answer: &Answer, place: usize) -> bool {
    let list = answer.entries[place].list.iter();
    let sum: u32 = list.map(|&(orbit, _)| answer.counts[orbit as usize]).sum();
    answer.summaries[place][2] == sum
}

/// What rule 2 buys: without the lines that have more than two points, every figure of
/// the jobs that miss (K) closes in itself.
#[test]
fn without_crowded_lines_what_misses_k_closes_in_itself() {
    let Some(oracle) = oracle() else { return };
    let crowded: Vec<Line> = table().into_iter().filter(|l| l.missing == "K").collect();
    assert_eq!(crowded.len(), 2);
    for line in crowded {
        let found = answer(&oracle, &format!("rule 2\n{}", line.text));
        for entry in &found.entries {
            let counts = ridges_by_facets(&entry.figure);
            assert_eq!(counts[0] + counts[2] + counts[3], 0, "{}", line.text);
        }
    }
}

#[test]
fn figures_of_the_table_do_not_close_in_themselves() {
    let Some(oracle) = oracle() else { return };
    let table = table();
    assert_eq!(table.len(), 9);
    for line in table {
        let found = answer(&oracle, &line.text);
        let place = found
            .entries
            .iter()
            .position(|entry| entry.list == line.entry);
        let place = place.unwrap_or_else(|| panic!("{:?} in:\n{}", line.entry, line.text));
        let counts = ridges_by_facets(&found.entries[place].figure);
        assert_eq!(counts, line.facets, "{}", line.text);
        assert!(counts[0] + counts[2] + counts[3] > 0, "{}", line.text);
        assert_eq!(rows_close(&line.text), line.missing != "G", "{}", line.text);
        if line.missing.contains('N') {
            assert!(!facets_are_counted(&found, place), "{}", line.text);
        }
    }
}
