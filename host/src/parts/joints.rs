//! Where the facets of a figure meet: the two at each ridge and the angle between them.

use std::collections::BTreeMap;

use faceting_register::Figure;

use super::facet::edges_of;
use super::shapes::Shapes;
use crate::geometry::{minus, norm};

/// Angles that differ by no more count as the same, in degrees; and so do those that
/// read the same with two decimals.
const FINENESS: f64 = 0.001;

/// How an angle reads.
fn hundredths(angle: f64) -> i64 {
    (angle * 100.0).round() as i64
}

/// Joints of one kind.
#[derive(Clone, Debug, PartialEq)]
pub struct Joint {
    /// How many there are.
    pub count: usize,
    /// The shapes on both sides.
    pub between: [usize; 2],
    /// The angle between the facets, at most 180 degrees; none where a facet lies on
    /// either side of the edge by turns, or is none that can be measured.
    pub angle: Option<f64>,
}

/// Ridges at which no two facets meet, but so many.
#[derive(Clone, Debug, PartialEq, Eq)]
pub struct Loose {
    /// How many ridges.
    pub count: usize,
    /// In how many facets each of them lies.
    pub facets: usize,
}

/// A ridge by its points.
fn ridge_points(figure: &Figure, rank: usize, ridge: usize) -> Vec<u32> {
    if rank == 1 {
        return vec![ridge as u32];
    }
    let mut ends: Vec<u32> = edges_of(figure, rank, ridge)
        .into_iter()
        .flatten()
        .collect();
    ends.sort_unstable();
    ends.dedup();
    ends
}

/// The joints of a figure whose facets have these numbers, by kind, and the ridges
/// without one. At rank 2 there are none.
pub fn joints(
    figure: &Figure,
    rank: usize,
    numbers: &[usize],
    shapes: &Shapes,
) -> (Vec<Joint>, Vec<Loose>) {
    let mut at: BTreeMap<u32, Vec<usize>> = BTreeMap::new();
    for (ridges, &number) in figure.ranks[rank].iter().zip(numbers) {
        for &ridge in ridges {
            at.entry(ridge).or_default().push(number);
        }
    }
    let mut found: BTreeMap<[usize; 2], Vec<Option<f64>>> = BTreeMap::new();
    let mut loose: BTreeMap<usize, usize> = BTreeMap::new();
    for (ridge, facets) in at.into_iter().filter(|_| rank > 1) {
        let &[one, other] = &facets[..] else {
            *loose.entry(facets.len()).or_default() += 1;
            continue;
        };
        let mut between = [shapes.shapes[one], shapes.shapes[other]];
        between.sort_unstable();
        let points = ridge_points(figure, rank - 1, ridge as usize);
        let angle = angle(shapes, one, other, &points);
        found.entry(between).or_default().push(angle);
    }
    let kinds = found
        .into_iter()
        .flat_map(|(between, angles)| kinds(between, angles));
    let loose = loose
        .into_iter()
        .map(|(facets, count)| Loose { count, facets });
    (kinds.collect(), loose.collect())
}

/// Between two facets at a ridge, in degrees.
pub fn angle(shapes: &Shapes, one: usize, other: usize, ridge: &[u32]) -> Option<f64> {
    let inward = |number: usize| shapes.facets[number].inward(ridge, shapes.points());
    let (u, v) = (inward(one)?, inward(other)?);
    let sum: Vec<f64> = u.iter().zip(&v).map(|(x, y)| x + y).collect();
    Some(2.0 * norm(&minus(&u, &v)).atan2(norm(&sum)).to_degrees())
}

/// Equal angles together, ascending; those without one last.
fn kinds(between: [usize; 2], angles: Vec<Option<f64>>) -> Vec<Joint> {
    let mut known: Vec<f64> = angles.iter().flatten().copied().collect();
    known.sort_by(f64::total_cmp);
    let none = angles.len() - known.len();
    let mut kinds: Vec<Joint> = Vec::new();
    let mut last = f64::NEG_INFINITY;
    for angle in known {
        let alike = |kind: &&mut Joint| {
            let reads = |known: f64| hundredths(known) == hundredths(angle);
            angle - last <= FINENESS || kind.angle.is_some_and(reads)
        };
        match kinds.last_mut().filter(alike) {
            Some(kind) => kind.count += 1,
            None => kinds.push(Joint {
                count: 1,
                between,
                angle: Some(angle),
            }),
        }
        last = angle;
    }
    kinds.extend((none > 0).then_some(Joint {
        count: none,
        between,
        angle: None,
    }));
    kinds
}

#[cfg(test)]
mod tests {
    use super::*;

    #[test]
    fn angles_that_read_the_same_are_of_one_kind() {
        let angles = [138.186, 90.0, 138.194, 138.21, 90.0004, 90.02].map(Some);
        let told = kinds([0, 1], [&angles[..], &[None]].concat());
        let told: Vec<(usize, Option<f64>)> = told.iter().map(|j| (j.count, j.angle)).collect();
        let wanted = [
            (2, Some(90.0)),
            (1, Some(90.02)),
            (2, Some(138.186)),
            (1, Some(138.21)),
            (1, None),
        ];
        assert_eq!(told, wanted);
    }
}
