//! The known jobs of docs/SPECIFICATION.md [14.2], on the original.

mod common;

use faceting_register::job::accept;
use faceting_register::{Refusal, Stop};

use common::{
    answer, judge, oracle, orbit_lists, refusal, CORNER, SQUARE, SQUARE_GROUP, WORKSPACE,
};

#[test]
fn rank_2_two_points() {
    let Some(oracle) = oracle() else { return };
    let plain = answer(&oracle, "rank 2\npoints\n0\n1\n");
    assert_eq!(plain.counts, [1, 1]);
    assert_eq!(plain.entries[0].list, [(0, 0), (1, 0)]);
    assert_eq!(plain.entries[0].before, [(0, 0), (1, 0)]);
    assert_eq!(plain.bytes().len(), 196);
    let swapped = answer(&oracle, "rank 2\npoints\n0\n1\ngenerators\n1 0\n");
    assert_eq!(swapped.counts, [2]);
    assert_eq!(swapped.entries[0].list, [(0, 0)]);
}

#[test]
fn rank_2_ridges_have_three_ranks() {
    let Some(oracle) = oracle() else { return };
    let found = answer(&oracle, "rank 2\npoints\n0\n1\n2\n");
    let ridges = found.facets.iter().map(|orbit| orbit[0].ranks.clone());
    let ridge = |vertex| vec![vec![], vec![vec![0]], vec![vec![vertex]]];
    assert_eq!(ridges.collect::<Vec<_>>(), [ridge(0), ridge(1)]);
    let edge = vec![vec![vec![]], vec![vec![0], vec![0]], vec![vec![0, 1]]];
    assert_eq!(found.entries[0].figure.ranks, edge);
    assert_eq!(found.summaries, [[2, 1, 2]]);
}

#[test]
fn square_with_its_symmetries() {
    let Some(oracle) = oracle() else { return };
    let symmetric = format!("{SQUARE}{SQUARE_GROUP}");
    let whole = answer(&oracle, &symmetric);
    assert_eq!(whole.counts, [4, 2]);
    assert_eq!(orbit_lists(&whole), [[0]]);
    assert_eq!(whole.examined, 3);
    let sides = answer(&oracle, &format!("{symmetric}max 1.2\n"));
    assert_eq!((sides.counts, sides.examined), (vec![4], 1));
    let none = answer(&oracle, &format!("{symmetric}max 0.5\n"));
    assert_eq!((none.counts.len(), none.entries.len()), (0, 0));
}

#[test]
fn square_with_the_identity() {
    let Some(oracle) = oracle() else { return };
    let whole = answer(&oracle, SQUARE);
    let lists: [&[u32]; 7] = [
        &[0, 1, 3],
        &[0, 1, 4, 5],
        &[0, 2, 3, 5],
        &[0, 2, 4],
        &[1, 2, 3, 4],
        &[1, 2, 5],
        &[3, 4, 5],
    ];
    assert_eq!(orbit_lists(&whole), lists);
    for limit in [0, 1] {
        let one = answer(&oracle, &format!("{SQUARE}limit {limit}\n"));
        assert_eq!(orbit_lists(&one), [[3, 4, 5]]);
        assert_eq!(one.examined, 5);
    }
}

#[test]
fn parabola_of_six_points() {
    let Some(oracle) = oracle() else { return };
    let found = answer(&oracle, "points\n0 0\n1 1\n2 4\n3 9\n4 16\n5 25\n");
    assert_eq!(found.counts.len(), 15);
    assert_eq!(found.entries.len(), 207);
    assert_eq!(found.compounds.len(), 10);
}

#[test]
fn tetrahedron_at_rank_4() {
    let Some(oracle) = oracle() else { return };
    let found = answer(&oracle, CORNER);
    assert_eq!(orbit_lists(&found), [[0, 1, 2, 3]]);
    assert_eq!(found.examined, 27);
    assert_eq!(refusal(&oracle, &format!("{CORNER}budget 27\n")), 0);
    assert_eq!(refusal(&oracle, &format!("{CORNER}budget 26\n")), 16);
}

#[test]
fn three_points_on_a_line() {
    let Some(oracle) = oracle() else { return };
    let line = answer(&oracle, "points\n0 0\n1 0\n2 0\n");
    assert_eq!((line.counts.len(), line.entries.len()), (1, 0));
    let orbits = |third: &str| {
        let text = format!("points\n0 0\n1 0\n0.5 {third}\n");
        answer(&oracle, &text).counts.len()
    };
    assert_eq!(orbits("0.00000004"), 1);
    assert_eq!(orbits("0.0000002"), 3);
}

#[test]
fn a_refit_with_two_vectors() {
    let Some(oracle) = oracle() else { return };
    let judged = judge(&oracle, "points\n0 0\n0.001 0.00000005\n1 0\n");
    assert_eq!(judged.result, Err(Stop::Refused(Refusal::Refit)));
    assert!(judged.events.long_refit);
}

#[test]
fn numbers_of_points() {
    let Some(oracle) = oracle() else { return };
    let on_line = |n: usize| {
        let points: String = (0..n).map(|i| format!("{i} 0\n")).collect();
        refusal(&oracle, &format!("points\n{points}"))
    };
    assert_eq!([20, 21, 1, 2].map(on_line), [0, 5, 5, 0]);
}

#[test]
fn a_job_of_ten_bytes() {
    let bytes = [b'F', b'C', b'T', 1, 0, 3, 2, 4, 1, 0];
    assert_eq!(accept(&bytes, WORKSPACE), Err(Refusal::Mark));
}
