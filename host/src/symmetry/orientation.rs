//! Whether a symmetry is a turn: whether the motion that carries the points has the
//! determinant 1. A set that lies flat is looked at within its own span, where its
//! mirror images differ from it, so that a polygon has the same turns however many
//! coordinates its points are written with.

use super::distances::gap;
use crate::geometry::{dot, minus, norm};

/// Points that span the set, and every point's place within the span.
pub struct Orientation {
    frame: Vec<usize>,
    places: Vec<Vec<f64>>,
}

impl Orientation {
    /// That of these points, of which there is one at least.
    pub fn of(points: &[Vec<f64>], tolerance: f64) -> Orientation {
        let from_first = |point: &Vec<f64>| minus(point, &points[0]);
        let mut rests: Vec<Vec<f64>> = points.iter().map(from_first).collect();
        let mut orientation = Orientation {
            frame: vec![0],
            places: vec![Vec::new(); points.len()],
        };
        let least = gap(farthest(&rests).1, tolerance);
        while orientation.frame.len() <= points[0].len() {
            let (next, length) = farthest(&rests);
            if length <= least {
                break;
            }
            let axis: Vec<f64> = rests[next].iter().map(|x| x / length).collect();
            orientation.frame.push(next);
            for (rest, place) in rests.iter_mut().zip(&mut orientation.places) {
                let along = dot(rest, &axis);
                rest.iter_mut()
                    .zip(&axis)
                    .for_each(|(x, a)| *x -= along * a);
                place.push(along);
            }
        }
        orientation
    }

    /// Whether a symmetry keeps it, being a turn.
    pub fn is_kept(&self, row: &[u8]) -> bool {
        let same = self.volume(|v| v);
        let moved = self.volume(|v| usize::from(row[v]));
        same.is_sign_positive() == moved.is_sign_positive()
    }

    /// The signed volume that the frame spans when its points are carried.
    fn volume(&self, carried: impl Fn(usize) -> usize) -> f64 {
        let place = |v: usize| &self.places[carried(v)];
        let first = place(self.frame[0]);
        let edges = self.frame[1..].iter().map(|&v| minus(place(v), first));
        determinant(edges.collect())
    }
}

/// The longest vector, as its place and its length.
fn farthest(vectors: &[Vec<f64>]) -> (usize, f64) {
    let lengths = vectors.iter().map(|vector| norm(vector));
    lengths
        .enumerate()
        .max_by(|(_, a), (_, b)| a.total_cmp(b))
        .unwrap_or((0, 0.0))
}

/// By elimination, the greatest number of a column first.
fn determinant(mut rows: Vec<Vec<f64>>) -> f64 {
    let mut product = 1.0;
    for k in 0..rows.len() {
        let greatest = |&i: &usize, &j: &usize| rows[i][k].abs().total_cmp(&rows[j][k].abs());
        let pivot = (k..rows.len()).max_by(greatest).unwrap_or(k);
        if pivot != k {
            rows.swap(pivot, k);
            product = -product;
        }
        let (above, below) = rows.split_at_mut(k + 1);
        let first = &above[k];
        product *= first[k];
        for row in below {
            let part = row[k] / first[k];
            row.iter_mut().zip(first).for_each(|(x, y)| *x -= part * y);
        }
    }
    product
}
