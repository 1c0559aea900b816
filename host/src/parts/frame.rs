//! A plane with two directions at right angles, as points lie in it.

use super::polygon::Place;
use crate::geometry::{dot, minus, norm};

/// Points of a plane lie within so many tolerances of the one through three of them.
const SLACK: f64 = 10.0;

/// A point of a plane and two directions of it, of length 1.
#[derive(Clone, Debug)]
pub struct Frame {
    origin: Vec<f64>,
    axes: [Vec<f64>; 2],
}

impl Frame {
    /// The plane of points: the way to the farthest from the first, and to the one
    /// that is farthest from that line. None where they lie on a line, or some of them
    /// off the plane, as the images of a facet do under a row that is no symmetry.
    pub fn through(points: &[&Vec<f64>], tolerance: f64) -> Option<Frame> {
        let origin = (*points.first()?).clone();
        let away: Vec<Vec<f64>> = points.iter().map(|point| minus(point, &origin)).collect();
        let first = unit(&away, tolerance)?;
        let off: Vec<Vec<f64>> = away.iter().map(|v| without(v, &first)).collect();
        let second = unit(&off, tolerance)?;
        let above = off.iter().map(|v| norm(&without(v, &second)));
        let farthest = above.fold(0.0, f64::max);
        let axes = [first, second];
        (farthest <= SLACK * tolerance).then_some(Frame { origin, axes })
    }

    /// Where a point is in the plane.
    pub fn place(&self, point: &[f64]) -> Place {
        let away = minus(point, &self.origin);
        [dot(&away, &self.axes[0]), dot(&away, &self.axes[1])]
    }

    /// A direction of the plane as one of the space around it.
    pub fn direction(&self, [x, y]: Place) -> Vec<f64> {
        let [first, second] = &self.axes;
        first
            .iter()
            .zip(second)
            .map(|(a, b)| x * a + y * b)
            .collect()
    }
}

/// The direction of the longest, the first of several.
fn unit(vectors: &[Vec<f64>], tolerance: f64) -> Option<Vec<f64>> {
    let longer = |kept: Option<(f64, usize)>, (i, vector): (usize, &Vec<f64>)| {
        let length = norm(vector);
        let more = kept.is_none_or(|(best, _)| length > best * (1.0 + 1e-9));
        if more {
            Some((length, i))
        } else {
            kept
        }
    };
    let (length, longest) = vectors.iter().enumerate().fold(None, longer)?;
    let scaled = |x: &f64| x / length;
    (length > tolerance).then(|| vectors[longest].iter().map(scaled).collect())
}

fn without(vector: &[f64], direction: &[f64]) -> Vec<f64> {
    let along = dot(vector, direction);
    let rest = |(x, d): (&f64, &f64)| x - along * d;
    vector.iter().zip(direction).map(rest).collect()
}
