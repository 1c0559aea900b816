//! Rows for point sets: their isometries, subgroups, and rows that are not
//! closed under composition.

use faceting_register::bounds::MOST_ROWS;
use faceting_register::job::identity_row;
use faceting_register::rows::closure;

use super::rng::Rng;
use super::shapes::Points;

/// The permutations that keep all distances, the identity first; at most that many.
pub fn isometries(points: &Points, most: usize) -> Vec<Vec<u8>> {
    let mut found = Vec::new();
    extend(&mut Vec::new(), &distances(points), most, &mut found);
    found
}

fn distances(points: &Points) -> Vec<Vec<f64>> {
    let distance = |p: &Vec<f64>, q: &Vec<f64>| -> f64 {
        p.iter().zip(q).map(|(a, b)| (a - b) * (a - b)).sum()
    };
    let row = |p| points.iter().map(|q| distance(p, q)).collect();
    points.iter().map(row).collect()
}

/// Gives the next vertex every image that keeps its distances to those before.
fn extend(images: &mut Vec<u8>, lengths: &[Vec<f64>], most: usize, found: &mut Vec<Vec<u8>>) {
    let next = images.len();
    if next == lengths.len() {
        found.push(images.clone());
        return;
    }
    for image in 0..lengths.len() {
        let fits = |v: usize| {
            let moved = lengths[usize::from(images[v])][image];
            (lengths[v][next] - moved).abs() < 1e-6
        };
        let new = !images.contains(&(image as u8));
        if found.len() < most && new && (0..next).all(fits) {
            images.push(image as u8);
            extend(images, lengths, most, found);
            images.pop();
        }
    }
}

/// One of: the identity alone, all isometries, a subgroup, rows not closed.
pub fn some_rows(rng: &mut Rng, points: &Points) -> Vec<Vec<u8>> {
    let n = points.len();
    let all = isometries(points, MOST_ROWS);
    match rng.below(6) {
        0 => vec![identity_row(n)],
        1 => all,
        2 | 3 => subgroup(rng, n, &all),
        4 => open_rows(rng, n, |rng| rng.pick(&all).clone()),
        _ => open_rows(rng, n, |rng| permutation(rng, n)),
    }
}

/// The rows that one or two of these generate.
pub fn subgroup(rng: &mut Rng, points: usize, all: &[Vec<u8>]) -> Vec<Vec<u8>> {
    let generators: Vec<Vec<u8>> = (0..rng.within(1, 2))
        .map(|_| rng.pick(all).clone())
        .collect();
    closure(points, &generators, MOST_ROWS)
}

/// The identity and a few more rows; repeated rows are allowed.
pub fn open_rows(
    rng: &mut Rng,
    points: usize,
    mut one: impl FnMut(&mut Rng) -> Vec<u8>,
) -> Vec<Vec<u8>> {
    let mut rows = vec![identity_row(points)];
    rows.extend((0..rng.within(1, 4)).map(|_| one(rng)));
    rows
}

/// Any permutation of so many points.
pub fn permutation(rng: &mut Rng, points: usize) -> Vec<u8> {
    let mut row = identity_row(points);
    rng.shuffle(&mut row);
    row
}
