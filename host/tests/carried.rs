//! Rows and the figures that they carry to themselves: [13.9] to [13.12] of
//! docs/SPECIFICATION.md, on the figures that `crates/definitions/specs/Carried.antt`
//! evaluates too.

mod common;

use common::{job, SQUARE, SQUARE_GROUP};
use faceting_register::{answer, Answer, Entry, Figure, Job, Register};
use facetings_host::symmetry::{carries, Carried};

fn read(text: &str) -> Job {
    Job::read(&job(text)).expect("the text form writes the layout")
}

/// A figure on so many points from its ranks, the edges first.
fn figure(points: usize, ranks: &[&[&[u32]]]) -> Figure {
    let below = [vec![vec![]], vec![vec![0]; points]];
    let above = ranks
        .iter()
        .map(|rank| rank.iter().map(|subs| subs.to_vec()).collect());
    Figure {
        ranks: below.into_iter().chain(above).collect(),
    }
}

fn path() -> Figure {
    figure(3, &[&[&[0, 1], &[1, 2]], &[&[0, 1]]])
}

const SIX_EDGES: &[&[u32]] = &[&[0, 1], &[0, 2], &[0, 3], &[1, 2], &[1, 3], &[2, 3]];

#[test]
fn edges_are_looked_at() {
    assert!(carries(&[0, 1, 2], &path()));
    assert!(carries(&[2, 1, 0], &path()));
    assert!(!carries(&[1, 2, 0], &path()));
}

#[test]
fn polygons_are_looked_at() {
    let one = figure(4, &[SIX_EDGES, &[&[0, 1, 3]], &[&[0]]]);
    assert!(carries(&[1, 2, 0, 3], &one));
    assert!(!carries(&[0, 1, 3, 2], &one));
    let all: &[&[u32]] = &[&[0, 1, 3], &[0, 2, 4], &[1, 2, 5], &[3, 4, 5]];
    let tetrahedron = figure(4, &[SIX_EDGES, all, &[&[0, 1, 2, 3]]]);
    assert!(carries(&[0, 1, 3, 2], &tetrahedron));
    assert!(carries(&[1, 2, 3, 0], &tetrahedron));
}

#[test]
fn what_names_no_element_is_not_carried() {
    let beside = figure(3, &[&[&[0, 7]], &[&[0]]]);
    assert!(!carries(&[0, 1, 2], &beside));
    assert!(carries(&[0, 1, 2], &Figure::default()));
}

/// An answer with these figures and nothing else that matters here.
fn with(figures: &[Figure]) -> Answer {
    let entry = |figure: &Figure| Entry {
        list: vec![(0, 0)],
        before: vec![(0, 0)],
        figure: figure.clone(),
    };
    Answer {
        examined: 0,
        counts: vec![],
        entries: figures.iter().map(entry).collect(),
        facets: vec![],
        compounds: vec![],
        summaries: vec![],
    }
}

#[test]
fn a_figure_that_is_carried_elsewhere_breaks_the_promise() {
    let square = figure(
        4,
        &[&[&[0, 1], &[0, 3], &[1, 2], &[2, 3]], &[&[0, 1, 2, 3]]],
    );
    let triangle = figure(4, &[&[&[0, 1], &[0, 2], &[1, 2]], &[&[0, 1, 2]]]);
    let job = read(&format!("{SQUARE}{SQUARE_GROUP}"));
    let look = |figures: &[Figure]| Carried::of(&job, &with(figures)).expect("rank 3 has one");
    let good = look(std::slice::from_ref(&square));
    assert!(good.closed && good.moved() == 0 && good.broken().is_none());
    let bad = look(&[square, triangle]);
    assert_eq!((bad.moved(), bad.elsewhere[0]), (1, None));
    let words = bad.broken().expect("the second entry breaks it");
    assert!(words.contains("entry 1"), "{words}");
}

#[test]
fn without_closed_rows_there_is_no_promise() {
    let Ok(mut register) = Register::open() else {
        return;
    };
    let turned = read("points\n0 0\n0 1\n2 2\nrows\n0 1 2\n1 2 0\n");
    let found = answer(&mut register, &turned).expect("the job is answered");
    let figures: Vec<&Figure> = found.entries.iter().map(|entry| &entry.figure).collect();
    assert_eq!(figures, [&path()]);
    let look = Carried::of(&turned, &found).expect("rank 3 has one");
    assert_eq!(look.elsewhere, [Some(1)]);
    assert!(!look.closed && look.broken().is_none());
}

#[test]
fn of_rank_2_nothing_is_promised() {
    let segment = read("rank 2\npoints\n0\n1\n2\nrows\n0 1 2\n1 2 0\n2 0 1\n");
    assert_eq!(Carried::of(&segment, &with(&[])), None);
}
