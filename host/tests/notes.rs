//! The notes on a set: what is told, with what to do, and in which order.

mod common;

use faceting_register::Job;
use facetings_host::report::notes::{Note, Notes};

use common::{job, SQUARE, SQUARE_GROUP};

fn notes(text: &str) -> Notes {
    Notes::of(&Job::read(&job(text)).expect("the job can be read"))
}

/// The notes of weight. What is light stands behind them.
fn weighing(text: &str) -> Vec<Note> {
    let list = notes(text).list;
    assert!(list.is_sorted_by_key(|note| !note.weighs), "{list:?}");
    list.into_iter().filter(|note| note.weighs).collect()
}

fn kinds(text: &str) -> Vec<&'static str> {
    weighing(text).iter().map(|note| note.kind).collect()
}

/// The only note of weight on a set.
fn only(text: &str) -> Note {
    let mut list = weighing(text);
    assert_eq!(list.len(), 1, "{list:?} for:\n{text}");
    list.remove(0)
}

const MORE_DIGITS: &str =
    "write coordinates with 12 or more decimals, or as expressions such as (1+sqrt(5))/2";

#[test]
fn a_set_in_order_has_no_note() {
    let hexagon = "points\n1 0\n1/2 sqrt(3)/2\n-1/2 sqrt(3)/2\n-1 0\n-1/2 -sqrt(3)/2\n1/2 -sqrt(3)/2\ngenerators\n1 2 3 4 5 0\n0 5 4 3 2 1\n";
    let far = "points\n60000 60000\n60001 60000\n60001 60001\n60000 60001\n";
    let raised = "rank 3\npoints\n0 0 5\n1 0 5\n1 1 5\n0 1 5\n";
    let sets = [
        SQUARE,
        &format!("{SQUARE}{SQUARE_GROUP}"),
        hexagon,
        far,
        raised,
        "rank 2\npoints\n0\n1\n",
    ];
    for set in sets {
        assert_eq!(kinds(set), [""; 0], "{set}");
    }
}

#[test]
fn a_row_that_does_not_keep_distances_is_told_with_the_pair() {
    let note = only(&format!("{SQUARE}generators\n1 3 2 0\n"));
    assert_eq!(
        note.words,
        "row 1 (1 3 2 0) does not keep distances: points 2 and 3 are 1 apart, their images 2 and 0 are 1.414213562"
    );
    let correct = "correct the row or generator, or two points that stand in each other's place";
    assert_eq!(note.change, correct);
    // Two points exchanged.
    let exchanged = format!("points\n0 0\n1 1\n1 0\n0 1\n{SQUARE_GROUP}");
    assert_eq!(
        (only(&exchanged).kind, &only(&exchanged).change[..]),
        ("distances", correct)
    );
    // Roundings have another remedy; that planes are missed is another note.
    let rounded = "points\n1 0\n-0.5 0.86603\n-0.5 -0.86603\ngenerators\n1 2 0\n";
    assert_eq!(
        (only(rounded).kind, &only(rounded).change[..]),
        ("distances", MORE_DIGITS)
    );
}

#[test]
fn rows_that_are_no_group_are_told() {
    let note = only(&format!("{SQUARE}rows\n0 1 2 3\n1 2 3 0\n"));
    assert_eq!(
        note.words,
        "the rows are no group: row 1 done twice is no row"
    );
    assert_eq!(note.change, "write 'generators' in place of 'rows'");
    let note = only(&format!("{SQUARE}rows\n0 1 2 3\n1 0 3 2\n3 2 1 0\n"));
    let words = "the rows are no group: row 1 and then row 2 is no row";
    assert_eq!(note.words, words);
}

#[test]
fn equal_points_and_crowded_lines_are_told() {
    let list = weighing(&format!("{SQUARE}0 0\n"));
    assert_eq!(list[0].words, "points 0 and 4 are equal");
    assert_eq!(list[0].change, "leave one of them out");
    assert_eq!(list[1].kind, "crowded");
    let near = weighing("points\n0 0\n1 0\n0 1\n0 0.00000005\n");
    let words = "points 0 and 3 are 5e-8 apart and count as equal";
    assert_eq!(near[0].words, words);
    let three = weighing("points\n0 0\n1 0\n2 0\n0 1\n");
    assert_eq!(
        three[0].words,
        "points 0, 1, 2 lie on a line: only the edge between a line's first two points is tried, here 0-1, so the numbering of the points matters"
    );
    let grid = "points\n0 0\n1 0\n2 0\n0 1\n1 1\n2 1\n0 2\n1 2\n2 2\n";
    let words = &only(grid).words;
    assert!(
        words.contains(", and there are 7 more such lines: "),
        "{words}"
    );
    assert!(only(grid).change.starts_with("write 'rule 2', "));
    // Under rule 2 the numbering does not matter, and the note has no weight.
    let ruled = notes(&format!("rule 2\n{grid}"));
    assert_eq!((ruled.list.len(), ruled.weight()), (1, 0));
    let note = &ruled.list[0];
    assert_eq!(note.kind, "rule");
    assert!(
        note.words
            .ends_with(": under rule 2 no edge lies on such a line"),
        "{}",
        note.words
    );
    // A line by itself has its edge under either rule.
    let line = "rank 2\nrule 2\npoints\n0\n1\n2\n";
    assert_eq!(only(line).kind, "crowded");
    assert!(only(line).change.starts_with("leave out points "));
    // In space too, where a line lies in several planes.
    assert_eq!(
        kinds("points\n0 0 0\n1 1 1\n2 2 2\n1 0 0\n0 1 0\n"),
        ["crowded"]
    );
}

#[test]
fn a_flat_set_and_lost_coordinates_are_told() {
    let flat = "rank 4\npoints\n0 0 0\n1 0 0\n1 1 0\n0 1 0\n";
    let note = only(flat);
    let words = "the set lies flat, in 2 dimensions, where rank 4 asks for 3 of them";
    assert_eq!(note.words, words);
    assert!(note.change.starts_with("write 'rank 3' "));
    let lost = "rank 3\npoints\n0 0 0\n1 0 0\n1 1 0.5\n0 1 0\n";
    let words = "coordinates are projected away: point 2 is 0.5 off the flat through point 0 that the set is seen in";
    assert_eq!(only(lost).words, words);
    // Nothing is lost where the basis is that of the points' own plane.
    let own = "rank 3\nbasis\n1 0 0\n0 sqrt(1/2) sqrt(1/2)\npoints\n0 0 0\n1 0 0\n1 1 1\n0 1 1\n";
    assert_eq!(kinds(own), [""; 0]);
}

#[test]
fn limits_that_cross_and_a_set_below_the_tolerance_are_told() {
    let note = only(&format!("{SQUARE}min 2\nmax 1\n"));
    assert_eq!(note.words, "min 2 is above max 1, so no edge is left");
    assert_eq!(note.change, "exchange them");
    assert_eq!(kinds(&format!("{SQUARE}min 1\nmax 1\n")), [""; 0]);
    let small = weighing("points\n0 0\n0.00000001 0\n0 0.00000001\n");
    let last = small.last().expect("there are notes");
    assert_eq!(
        last.words,
        "the whole set is 1.4e-8 wide, less than the tolerance 1e-7"
    );
}

/// Four points, the last so far above the line of the others, or off the plane.
fn off_by(length: f64) -> [String; 2] {
    [
        format!("points\n0 0\n1 0\n0 1\n0.5 {length:?}\n"),
        format!("points\n0 0 0\n1 0 0\n0 1 0\n1 1 {length:?}\n0 0 1\n"),
    ]
}

#[test]
fn the_margin_is_thin_near_the_border_on_both_sides() {
    for (length, thin) in [
        (1e-12, false),
        (4e-9, false),
        (3e-8, true),
        (9e-8, true),
        (2e-7, true),
        (3e-5, true),
        (1e-3, false),
    ] {
        for set in off_by(length) {
            let found = kinds(&set).contains(&"margin");
            assert_eq!(found, thin, "{length}: {set}");
        }
    }
    let [line, _] = off_by(9e-8);
    let list = weighing(&line);
    let note = list.last().expect("there are notes");
    assert_eq!(
        note.words,
        "the margin is thin: point 3 is 9e-8 from the line of 0 1 and counts as on it; point 1 is 1.8e-7 from the line of 0 3 and counts as off it"
    );
    assert_eq!(note.change, MORE_DIGITS);
}

#[test]
fn the_margin_has_both_sides_of_the_border() {
    let cube: String = (0..8)
        .map(|v| format!("{} {} {}\n", v & 1, v >> 1 & 1, v >> 2))
        .collect();
    let margin = notes(&format!("points\n{cube}")).margin.expect("a margin");
    let [on, off] = [margin.on, margin.off].map(|side| side.expect("both sides").length);
    assert!(on < 1e-12, "{on}");
    assert!((off - (1.0f64 / 3.0).sqrt()).abs() < 1e-12, "{off}");
    assert_eq!(margin.border, 1e-7);
    let triangle = notes("points\n0 0\n1 0\n0 1\n").margin.expect("a margin");
    assert!(triangle.on.is_none() && triangle.off.is_some());
    assert!(notes("rank 2\npoints\n0\n1\n").margin.is_none());
}

/// A set with nearly everything wrong, and one for the rest.
#[test]
fn notes_stand_in_the_order_of_their_weight() {
    let wrong =
        "rank 3\nmin 2\nmax 1\npoints\n0 0 0\n1 0 0\n2 0 0\n2 0 5\nrows\n0 1 2 3\n1 2 3 0\n";
    let order = [
        "distances",
        "group",
        "equal",
        "crowded",
        "flat",
        "projected",
        "limits",
    ];
    assert_eq!(kinds(wrong), order);
    let tiny = "min 2\nmax 1\npoints\n0 0\n0.00000001 0\n0 0.00000001\n";
    assert_eq!(kinds(tiny), ["equal", "flat", "limits", "small"]);
    let thin = "min 2\nmax 1\npoints\n0 0\n1 0\n0 1\n0.5 0.0000002\n";
    assert_eq!(kinds(thin), ["limits", "margin"]);
    assert_eq!(notes(wrong).weight(), order.len());
    let light = format!("{SQUARE}generators\n2 3 0 1\n");
    assert_eq!((notes(&light).list.len(), notes(&light).weight()), (1, 0));
}
