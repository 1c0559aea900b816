//! The host's own look at figures, and the label that is made of it.

mod common;

use faceting_register::{Answer, Entry, Figure, Job};
use facetings_host::cases::generator::{case, kind_named};
use facetings_host::engines::judgement::Judgement;
use facetings_host::engines::oracle::{kept, Oracle};
use facetings_host::geometry::{dot, minus};
use facetings_host::report::flat::Flat;
use facetings_host::report::look::{looks, Look};
use facetings_host::report::notes::{Note, Notes};
use facetings_host::report::page::Subject;
use facetings_host::report::{Report, Source};

use common::{job, judge, oracle, SQUARE, SQUARE_GROUP};

/// A figure of rank 3 on so many points, from its edges.
fn polygon(points: usize, edges: &[[u32; 2]]) -> Figure {
    let all = (0..edges.len() as u32).collect();
    Figure {
        ranks: vec![
            vec![vec![]],
            vec![vec![0]; points],
            edges.iter().map(|ends| ends.to_vec()).collect(),
            vec![all],
        ],
    }
}

/// A figure one rank higher, whose facets are made of the elements that were facets.
fn raised(mut figure: Figure, facets: &[&[u32]]) -> Figure {
    figure.ranks.pop();
    let all = (0..facets.len() as u32).collect();
    figure
        .ranks
        .push(facets.iter().map(|facet| facet.to_vec()).collect());
    figure.ranks.push(vec![all]);
    figure
}

fn answer(figures: Vec<Figure>) -> Answer {
    let summaries = figures.iter().map(Figure::summary).collect();
    let entry = |figure| Entry {
        list: vec![],
        before: vec![],
        figure,
    };
    Answer {
        examined: 0,
        counts: vec![],
        entries: figures.into_iter().map(entry).collect(),
        facets: vec![],
        compounds: vec![],
        summaries,
    }
}

fn look(figure: Figure) -> Look {
    looks(&answer(vec![figure])).remove(0)
}

const TRIANGLE: [[u32; 2]; 3] = [[0, 1], [0, 2], [1, 2]];
const TETRAHEDRON: [[u32; 2]; 6] = [[0, 1], [0, 2], [0, 3], [1, 2], [1, 3], [2, 3]];
const FACES: [&[u32]; 4] = [&[0, 1, 3], &[0, 2, 4], &[1, 2, 5], &[3, 4, 5]];

#[test]
fn a_figure_closes_where_every_ridge_lies_in_two_facets() {
    let triangle = look(polygon(4, &TRIANGLE));
    assert!(
        triangle.closes(),
        "points that no edge ends at do not count"
    );
    let tetrahedron = || raised(polygon(4, &TETRAHEDRON), &FACES);
    assert!(look(tetrahedron()).closes());
    let solid = raised(tetrahedron(), &[&[0, 1, 2, 3], &[0, 1, 2, 3]]);
    assert!(look(solid).closes());
}

#[test]
fn the_first_ridge_that_does_not_close_is_told_in_words() {
    let open = |figure| look(figure).open;
    let path = polygon(3, &[[0, 1], [1, 2]]);
    assert_eq!(open(path), Some("point 0 lies in 1 edge".into()));
    let star = polygon(5, &[[0, 1], [1, 2], [1, 3], [1, 4]]);
    let bow = polygon(5, &[[0, 1], [0, 2], [1, 2], [2, 3], [2, 4], [3, 4]]);
    assert_eq!(open(star), Some("point 0 lies in 1 edge".into()));
    assert_eq!(open(bow), Some("point 2 lies in 4 edges".into()));
    let flap = raised(polygon(4, &TETRAHEDRON), &FACES[..1]);
    assert_eq!(open(flap), Some("edge 0-1 lies in 1 facet".into()));
    let three = raised(polygon(4, &TETRAHEDRON), &[FACES[0]; 3]);
    assert_eq!(open(three), Some("edge 0-1 lies in 3 facets".into()));
    let lone = raised(raised(polygon(4, &TETRAHEDRON), &FACES), &[&[1, 2]]);
    let words = "the face with the edges 0-1 0-3 1-3 lies in 1 facet";
    assert_eq!(open(lone), Some(words.into()));
}

#[test]
fn pieces_are_facets_that_hang_together_by_ridges() {
    let two = polygon(6, &[[0, 1], [0, 2], [1, 2], [3, 4], [3, 5], [4, 5]]);
    assert_eq!((look(two.clone()).pieces, look(two).open), (2, None));
    assert_eq!(look(polygon(3, &TRIANGLE)).pieces, 1);
    // Two triangles with a common point hang together at rank 3, not at rank 4.
    let bow = [[0, 1], [0, 2], [1, 2], [2, 3], [2, 4], [3, 4]];
    assert_eq!(look(polygon(5, &bow)).pieces, 1);
    let faces = raised(polygon(5, &bow), &[&[0, 1, 2], &[3, 4, 5]]);
    assert_eq!(look(faces).pieces, 2);
    // Joined late, by the last facet.
    let ring = [[0, 1], [2, 3], [1, 2], [0, 3]];
    assert_eq!(look(polygon(4, &ring)).pieces, 1);
}

#[test]
fn an_entry_that_was_listed_before_is_told() {
    let square = polygon(4, &[[0, 1], [0, 3], [1, 2], [2, 3]]);
    let triangle = polygon(4, &TRIANGLE);
    let seen = looks(&answer(vec![
        square.clone(),
        triangle.clone(),
        square.clone(),
        triangle,
        square,
    ]));
    let equals: Vec<Option<usize>> = seen.iter().map(|look| look.equals).collect();
    assert_eq!(equals, [None, None, Some(0), Some(1), Some(0)]);
}

/// The report on an accepted job, by the original.
fn report(oracle: &Oracle, text: &str) -> Report {
    let bytes = job(text);
    let found = judge(oracle, text).result.expect("the job is accepted");
    let asked = Job::read(&bytes).expect("the job can be read");
    let subject = Subject {
        name: "set".into(),
        about: None,
        rank: asked.rank,
        found: None,
    };
    let source = Source::of("original", &bytes);
    let plain = Some(kept(&found));
    Report::of(&subject, source, asked, &found.bytes(), plain).expect("an answer")
}

const GRID: &str = "points\n0 0\n1 0\n2 0\n0 1\n1 1\n2 1\n0 2\n1 2\n2 2\ngenerators\n0 3 6 1 4 7 2 5 8\n2 5 8 1 4 7 0 3 6\n";
const CUBE: &str = "points\n0 0 0\n1 0 0\n0 1 0\n1 1 0\n0 0 1\n1 0 1\n0 1 1\n1 1 1\n";
const CUBE_GROUP: &str = "generators\n0 1 4 5 2 3 6 7\n1 3 0 2 5 7 4 6\n";

#[test]
fn the_label_says_what_was_left_out_and_what_does_not_close() {
    let Some(oracle) = oracle() else { return };
    let cases = [
        (
            GRID.to_string(),
            "8 figures, 4 of them plain, 2 of them close in themselves",
        ),
        (
            format!("{CUBE}{CUBE_GROUP}"),
            "3 figures, 2 of them plain, 1 of them a compound",
        ),
        (
            format!("{SQUARE}{SQUARE_GROUP}"),
            "1 figure, 1 of them plain",
        ),
        (
            format!("{CUBE}limit 20\n"),
            "at least 20 figures (entry limit 20), 20 of them plain",
        ),
        (
            format!("{CUBE}{CUBE_GROUP}limit 20\n"),
            "3 figures (entry limit 20 not reached), 2 of them plain, 1 of them a compound",
        ),
        (
            format!("{CUBE}{CUBE_GROUP}limit 2\n"),
            "at least 2 figures (entry limit 2), 2 of them plain",
        ),
        // Three figures at most are asked for, and a plane has three possible facets:
        // others may be missing, so more figures may be.
        (
            format!("{CUBE}{CUBE_GROUP}limit 3\n"),
            "at least 3 figures (entry limit 3), 2 of them plain, 1 of them a compound",
        ),
        (
            format!("{SQUARE}limit 0\n"),
            "at least 1 figure (entry limit 0), 1 of them plain",
        ),
        (
            format!("{SQUARE}limit 8\n"),
            "7 figures (entry limit 8 not reached), 7 of them plain",
        ),
        (
            format!("{SQUARE}limit 7\n"),
            "at least 7 figures (entry limit 7), 7 of them plain",
        ),
        (
            "rank 2\npoints\n0\n1\nlimit 1\n".into(),
            "1 figure (entry limit 1 not reached), 1 of them plain",
        ),
        (
            format!("{SQUARE}max 1.2\n"),
            "1 figure (edges of length 1.2 or less), 1 of them plain",
        ),
        (
            format!("{SQUARE}min 1.2\n"),
            "no figures (edges of length 1.2 or more)",
        ),
        (
            format!("{SQUARE}min 0.5\nmax 1.2\nlimit 9\n"),
            "1 figure (entry limit 9 not reached, edges of length 0.5 to 1.2), 1 of them plain",
        ),
        (
            format!("{SQUARE}rows\n0 1 2 3\n1 2 3 0\n"),
            "7 figures, 3 of them plain, 2 of them close in themselves, 6 of them different",
        ),
    ];
    for (text, label) in cases {
        assert_eq!(report(&oracle, &text).label(), label, "{text}");
    }
}

/// An entry limit that is not told as reached has left nothing out.
#[test]
fn a_limit_that_is_not_reached_changes_nothing() {
    let Some(oracle) = oracle() else { return };
    let sets = [
        GRID.to_string(),
        format!("{CUBE}{CUBE_GROUP}"),
        SQUARE.into(),
    ];
    for set in sets {
        let whole = report(&oracle, &set);
        assert!(!whole.count.cut);
        for limit in 0..12 {
            let limited = report(&oracle, &format!("{set}limit {limit}\n"));
            let same = limited.answer.entries == whole.answer.entries;
            assert!(same || limited.count.cut, "limit {limit}: {set}");
        }
    }
}

/// The facets through each ridge, counted the long way round.
fn closes_by_hand(figure: &Figure) -> bool {
    let [.., ridges, facets, _] = &figure.ranks[..] else {
        return false;
    };
    (0..ridges.len() as u32).all(|ridge| {
        let through = facets.iter().filter(|facet| facet.contains(&ridge));
        matches!(through.count(), 0 | 2)
    })
}

/// The summary's facets, and the counts of the orbits that the list names: where no
/// facet is counted in two planes they are the same.
fn counted_once(answer: &Answer, e: usize) -> bool {
    let list = &answer.entries[e].list;
    let sum: u32 = list.iter().map(|&(o, _)| answer.counts[o as usize]).sum();
    answer.summaries[e][2] == sum
}

/// What README says of closing, as it is argued: where the rows are a group, lines
/// hold two points and shares are equal, a figure closes in itself exactly if no facet
/// of it was counted in two planes; at rank 3 it always does.
fn as_argued(judged: &Judgement, answer: &Answer, seen: &[Look]) -> bool {
    let events = &judged.events;
    if judged.rows_open() || events.crowded_line || events.unequal_shares {
        return false;
    }
    for (e, look) in seen.iter().enumerate() {
        let once = counted_once(answer, e);
        assert_eq!(look.closes(), once, "entry {e}");
        assert!(once || judged.rank() > 3, "entry {e}");
    }
    judged.rank() > 2
}

/// Whether the rows are a group of symmetries, with room to spare on either side of
/// every plane, and no line of an edge goes through the points' middle: then every
/// entry closes in itself.
fn exactly_as_argued(job: &Job) -> bool {
    let light = |note: &Note| !note.weighs || ["flat", "limits"].contains(&note.kind);
    if job.rank < 3 || job.limit.is_some() || !Notes::of(job).list.iter().all(light) {
        return false;
    }
    let points: Vec<Vec<f64>> = job
        .points
        .iter()
        .map(|point| flattened(job, point))
        .collect();
    let count = points.len() as f64;
    let middle: Vec<f64> = (0..points[0].len())
        .map(|axis| points.iter().map(|point| point[axis]).sum::<f64>() / count)
        .collect();
    let misses = |a: usize, b: usize| {
        let line = Flat::through([&points[a], &points[b]], 1e-7);
        line.distance(&middle) > 1e-6
    };
    (0..points.len()).all(|b| (0..b).all(|a| misses(a, b)))
}

fn flattened(job: &Job, point: &[f64]) -> Vec<f64> {
    let away = minus(point, &job.offset);
    job.basis.iter().map(|vector| dot(&away, vector)).collect()
}

#[test]
fn figures_close_where_it_is_argued_that_they_do() {
    let Some(oracle) = oracle() else { return };
    let (mut argued, mut exactly, mut entries, mut open) = (0, 0, 0, 0);
    let kinds = [None, kind_named("polyhedron"), kind_named("lattice")];
    for number in 0..900 {
        let case = case(14, number, kinds[number % kinds.len()]);
        let judged = oracle.judge(&case.job, usize::MAX);
        let Ok(answer) = &judged.result else {
            continue;
        };
        let seen = looks(answer);
        for (look, entry) in seen.iter().zip(&answer.entries) {
            assert_eq!(look.closes(), closes_by_hand(&entry.figure));
            open += usize::from(!look.closes());
        }
        if judged.job.as_ref().is_some_and(exactly_as_argued) {
            assert!(seen.iter().all(Look::closes), "case {number}");
            exactly += 1;
        }
        if as_argued(&judged, answer, &seen) {
            argued += 1;
            entries += seen.len();
        }
    }
    assert!(exactly > 50, "{exactly} jobs");
    assert!(
        argued > 200 && entries > 2_000,
        "{argued} jobs, {entries} entries"
    );
    assert!(open > 100, "only {open} entries do not close");
}

/// Figures in the plane, of jobs whose rows are a group: under rule 2 all close in
/// themselves, and of the same jobs under rule 1 many do not.
#[test]
fn figures_of_the_plane_close_under_rule_2() {
    let Some(oracle) = oracle() else { return };
    let (mut jobs, mut entries, mut open) = ([0; 2], [0; 2], [0; 2]);
    for number in 0..1_500 {
        let case = case(9, number, kind_named("rule"));
        let Some(mut job) = Job::read(&case.job).filter(|job| job.rank == 3) else {
            continue;
        };
        for (place, rule) in [1, 2].into_iter().enumerate() {
            job.rule = rule;
            let judged = oracle.judge(&job.write(), usize::MAX);
            let Ok(answer) = judged.result.as_ref().map_err(|_| ()) else {
                continue;
            };
            if judged.rows_open() {
                continue;
            }
            let closed = looks(answer).iter().filter(|look| look.closes()).count();
            jobs[place] += 1;
            entries[place] += answer.entries.len();
            open[place] += answer.entries.len() - closed;
        }
    }
    println!("under rules 1 and 2: {jobs:?} jobs, {entries:?} entries, {open:?} do not close");
    assert!(jobs[1] > 200 && entries[1] > 200, "{jobs:?}, {entries:?}");
    assert!(open[0] > 50 && open[1] == 0, "{open:?}");
}
