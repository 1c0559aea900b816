//! Points of docs/DECISIONS.md that the original settles, each by a small job.

mod common;

use std::collections::BTreeSet;

use faceting_register::{Answer, Engine};

use common::{answer, job, judge, oracle, orbit_lists, refusal, CORNER, SQUARE, SQUARE_GROUP};

const TWO_ORDERS: &str =
    "points\n0 1 0\n1 2 0\n1 0 1\n0 0 0\n2 1 1\nrows\n0 1 2 3 4\n0 1 4 3 2\n0 1 3 4 2\n";

/// The facets of each entry, whatever their order.
fn choices(answer: &Answer) -> BTreeSet<Vec<(u32, u32)>> {
    let sorted = |mut list: Vec<(u32, u32)>| {
        list.sort_unstable();
        list
    };
    answer
        .entries
        .iter()
        .map(|e| sorted(e.list.clone()))
        .collect()
}

#[test]
fn a_compound_facet_is_split_at_its_own_place() {
    let Some(oracle) = oracle() else { return };
    let rows = "rows\n0 1 2 3\n3 1 2 0\n1 3 2 0\n";
    let found = answer(
        &oracle,
        &format!("points\n0 0 0\n0 0 1\n0 1 0\n1 0 0\n{rows}"),
    );
    assert_eq!(found.entries[1].list, [(0, 0), (1, 0), (1, 2), (2, 0)]);
    assert_eq!(found.entries[1].before, [(0, 0), (1, 1), (2, 0)]);
    let compound = [((1, 1), vec![(1, 0), (1, 2)])];
    assert_eq!(found.entries[1].compound_facets(), compound);
    for e in [0, 2] {
        assert_eq!(found.entries[e].before, found.entries[e].list);
        assert_eq!(found.entries[e].compound_facets(), []);
    }
    assert_eq!(found.compounds, [[1, 0, 2]]);
}

#[test]
fn the_entry_limit_passes_down() {
    let Some(oracle) = oracle() else { return };
    let cube: String = (0..8)
        .map(|v| format!("{} {} {}\n", v & 1, v >> 1 & 1, v >> 2))
        .collect();
    let found = answer(&oracle, &format!("points\n{cube}limit 2\n"));
    let most = found.facets.iter().map(Vec::len).max();
    assert_eq!(most, Some(2));
}

#[test]
fn refusal_13_is_met_as_a_set_opens_an_orbit() {
    let Some(mut oracle) = oracle() else { return };
    oracle.bounds.orbits = 6;
    assert_eq!(refusal(&oracle, SQUARE), 0);
    oracle.bounds.orbits = 5;
    assert_eq!(refusal(&oracle, SQUARE), 13);
    // Its sets are found before any refit, and before any list is due.
    assert_eq!(refusal(&oracle, &format!("{SQUARE}budget 0\n")), 13);
}

#[test]
fn refusal_15_for_facets_counts_over_all_orbits() {
    let Some(mut oracle) = oracle() else { return };
    oracle.bounds.facets = 4;
    assert_eq!(refusal(&oracle, CORNER), 0);
    oracle.bounds.facets = 3;
    assert_eq!(refusal(&oracle, CORNER), 15);
    // The fourth facet is stored when its orbit's call has examined its lists,
    // 5 in each call: the budget is used up before or after.
    assert_eq!(refusal(&oracle, &format!("{CORNER}budget 19\n")), 16);
    assert_eq!(refusal(&oracle, &format!("{CORNER}budget 20\n")), 15);
}

#[test]
fn refusal_15_for_entries_comes_before_the_limit_test() {
    let Some(mut oracle) = oracle() else { return };
    let limited = format!("{SQUARE}limit 0\n");
    oracle.bounds.entries = 1;
    assert_eq!(refusal(&oracle, &limited), 0);
    assert_eq!(refusal(&oracle, SQUARE), 15);
    oracle.bounds.entries = 0;
    assert_eq!(refusal(&oracle, &limited), 15);
    oracle.bounds.entries = 7;
    assert_eq!(refusal(&oracle, SQUARE), 0);
}

#[test]
fn refusal_14_waits_for_the_calls_of_earlier_orbits() {
    let Some(mut oracle) = oracle() else { return };
    // The line of points 0 and 1 comes first and is sound; that of 0, 2 and 3 is not.
    let text = "points\n0 0\n0 1\n0.001 0.00000005\n1 0\n";
    assert_eq!(refusal(&oracle, text), 14);
    oracle.bounds.facets = 0;
    assert_eq!(refusal(&oracle, text), 15);
}

#[test]
fn a_set_may_hold_one_point_of_its_tuple() {
    let Some(oracle) = oracle() else { return };
    let judged = judge(
        &oracle,
        "points
        21844.99257815905 21845.00069279001 43690
        43689.99875786446 43690 65535
        21845 21845.005930858333 21845
        21845 21845 65535.00313291059",
    );
    assert!(judged.events.small_set && judged.events.short_refit);
}

#[test]
fn a_choice_may_have_two_orders() {
    let Some(oracle) = oracle() else { return };
    let judged = judge(&oracle, TWO_ORDERS);
    assert!(judged.events.unequal_shares);
    let found = answer(&oracle, TWO_ORDERS);
    assert_eq!(found.entries.len(), 17);
    assert_eq!(choices(&found).len(), 15);
    // The two lists hold the same facets in another order, so they differ.
    assert!(found.has_reordered_entries() && !found.has_equal_entries());
}

#[test]
fn a_choice_may_be_emitted_twice_in_one_order() {
    let Some(oracle) = oracle() else { return };
    let found = answer(
        &oracle,
        "points
        1 1 0
        1 0 0
        1 0 1
        0 0 1
        0 1 1
        1 1 1
        rows
        0 1 2 3 4 5
        2 1 0 5 4 3
        2 0 3 1 5 4
        5 2 0 4 1 3
        1 0 5 4 2 3",
    );
    assert!(found.has_equal_entries());
}

#[test]
fn closed_rows_of_a_polygon_have_equal_shares() {
    let Some(oracle) = oracle() else { return };
    let judged = judge(&oracle, &format!("{SQUARE}{SQUARE_GROUP}"));
    assert!(!judged.events.unequal_shares && !judged.rows_open());
}

#[test]
fn a_crowded_line_keeps_its_first_edge_whatever_the_limits() {
    let Some(oracle) = oracle() else { return };
    let found = answer(&oracle, "points\n0 0\n0.1 0\n2 0\nmin 1\n");
    assert_eq!(found.counts, [1]);
    assert_eq!(found.facets[0][0].ranks[2], [[0, 1]]);
}

#[test]
fn lengths_are_those_of_the_points_as_passed() {
    let Some(oracle) = oracle() else { return };
    // The third coordinate is flattened away, but makes every pair too long.
    let text = "rank 3\npoints\n0 0 0\n1 0 5\n0 1 10\nmax 2\n";
    assert_eq!(answer(&oracle, text).counts.len(), 0);
    let lower = "rank 3\npoints\n0 0 0\n1 0 0\n0 1 0\nmax 2\n";
    assert_eq!(orbit_lists(&answer(&oracle, lower)), [[0, 1, 2]]);
}

#[test]
fn a_min_of_minus_zero_and_a_budget_of_zero_are_accepted() {
    let Some(oracle) = oracle() else { return };
    assert_eq!(refusal(&oracle, &format!("{SQUARE}min -0.0\n")), 0);
    assert_eq!(refusal(&oracle, &format!("{SQUARE}max 0.5\nbudget 0\n")), 0);
    assert_eq!(refusal(&oracle, &format!("{SQUARE}budget 0\n")), 16);
}

#[test]
fn the_tolerance_is_a_value_of_the_job() {
    let Some(oracle) = oracle() else { return };
    let text = "points\n0 0\n1 0\n0.5 0.0000002\n";
    assert_eq!(answer(&oracle, text).counts.len(), 3);
    let coarse = format!("tolerance 0.001\n{text}");
    assert_eq!(answer(&oracle, &coarse).counts.len(), 1);
}

/// Under rule 2 a line with more than two points has no edge, in a plane of a solid
/// too; planes stay, and a job of rank 2 keeps its edge.
#[test]
fn the_rule_is_a_value_of_the_job() {
    let Some(oracle) = oracle() else { return };
    let under = |rule: u8, text: &str| answer(&oracle, &format!("rule {rule}\n{text}"));
    let triangle = "points\n0 0\n1 0\n2 0\n0 1\n";
    assert_eq!(under(1, triangle), answer(&oracle, triangle));
    let (one, two) = (under(1, triangle), under(2, triangle));
    assert_eq!((one.counts.len(), one.entries.len()), (4, 1));
    assert_eq!((two.counts.len(), two.entries.len()), (3, 0));
    let plane = "points\n0 0 0\n1 0 0\n2 0 0\n0 1 0\n";
    let (one, two) = (under(1, plane), under(2, plane));
    assert_eq!((one.counts.len(), one.facets[0].len()), (1, 1));
    assert_eq!((two.counts.len(), two.facets[0].len()), (1, 0));
    let line = "rank 2\npoints\n0\n1\n2\n";
    assert_eq!(under(1, line), under(2, line));
    let grid = "points\n0 0\n1 0\n2 0\n0 1\n1 1\n2 1\n0 2\n1 2\n2 2\ngenerators\n0 3 6 1 4 7 2 5 8\n2 1 0 5 4 3 8 7 6\n";
    let two = under(2, grid);
    assert_eq!((two.examined, &two.counts[..]), (3, &[8, 4][..]));
    assert_eq!(two.summaries, [[8, 8, 8], [4, 4, 4]]);
}

#[test]
fn buffers_exactly_full_and_one_short() {
    let Some(mut oracle) = oracle() else { return };
    let job = job(SQUARE);
    let bytes = answer(&oracle, SQUARE).bytes();
    let mut full = vec![7; bytes.len()];
    assert_eq!(oracle.answer(&job, 524_288, &mut full), bytes.len() as i64);
    assert_eq!(full, bytes);
    let mut long = vec![7; bytes.len() + 3];
    assert_eq!(oracle.answer(&job, 524_288, &mut long), bytes.len() as i64);
    assert_eq!(long[bytes.len()..], [0, 0, 0]);
    let mut short = vec![7; bytes.len() - 1];
    assert_eq!(oracle.answer(&job, 524_288, &mut short), -17);
    assert!(short.iter().all(|&byte| byte == 0));
    assert_eq!(oracle.answer(&job, 524_287, &mut full), -12);
    assert!(full.iter().all(|&byte| byte == 0));
}

#[cfg(has_miratope)]
#[test]
fn plain_lists_hold_no_other_list() {
    let lists = [
        vec![(0, 0), (1, 0)],
        vec![(0, 0), (1, 0), (2, 0)],
        vec![(1, 0)],
    ];
    let plain = facetings_host::engines::original::plain_lists(&lists.to_vec());
    assert_eq!(plain, [0, 2]);
}
