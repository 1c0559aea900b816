//! The distances between points, as far as they are told apart.

use faceting_register::bounds;
use faceting_register::job::Job;

use crate::geometry::{flattened, minus, norm};

/// In a set of size 1 or more lengths are told apart by the tolerance; in a smaller one
/// by so many times that part of its size.
const FINENESS: f64 = 10.0;

/// Lengths that differ by no more count as the same, in a set whose greatest length
/// is given: the job's own tolerance, and less in a small set.
pub fn gap(greatest: f64, tolerance: f64) -> f64 {
    tolerance.min(FINENESS * tolerance * greatest)
}

/// A job's tolerance; the usual one where the job is refused for its own.
pub fn tolerance_of(job: &Job) -> f64 {
    match bounds::TOLERANCES.contains(&job.tolerance) {
        true => job.tolerance,
        false => bounds::TOLERANCE,
    }
}

/// A number for each pair of points: equal ones for equal distances. So being equal
/// carries over from one pair to the next, and what keeps these numbers is a group.
pub struct Distances {
    points: usize,
    classes: Vec<usize>,
}

impl Distances {
    /// Those between these points.
    pub fn between(points: &[Vec<f64>], tolerance: f64) -> Distances {
        let lengths: Vec<f64> = points
            .iter()
            .flat_map(|p| points.iter().map(move |q| norm(&minus(p, q))))
            .collect();
        Distances {
            points: points.len(),
            classes: classes(&lengths, tolerance),
        }
    }

    /// Those that matter to a job: between its flattened points and, where it has a
    /// least or greatest length, between the points as given.
    pub fn of(job: &Job) -> Distances {
        let tolerance = tolerance_of(job);
        let flat = Distances::between(&flattened(job), tolerance);
        match (job.min, job.max) {
            (None, None) => flat,
            _ => flat.and(&Distances::between(&job.points, tolerance)),
        }
    }

    /// Equal only where both are.
    pub fn and(&self, other: &Distances) -> Distances {
        let pairs: Vec<(usize, usize)> = (self.classes.iter().copied())
            .zip(other.classes.iter().copied())
            .collect();
        let mut kinds = pairs.clone();
        kinds.sort_unstable();
        kinds.dedup();
        let class = |pair: &(usize, usize)| kinds.partition_point(|kind| kind < pair);
        Distances {
            points: self.points,
            classes: pairs.iter().map(class).collect(),
        }
    }

    /// How many points there are.
    pub fn points(&self) -> usize {
        self.points
    }

    /// Whether a permutation keeps them all.
    pub fn are_kept(&self, row: &[u8]) -> bool {
        let image = |v: usize| usize::from(row[v]);
        let kept = |v, w| self.class(v, w) == self.class(image(v), image(w));
        (0..self.points).all(|v| (0..v).all(|w| kept(v, w)))
    }

    /// The number of a pair.
    pub fn class(&self, v: usize, w: usize) -> usize {
        self.classes[v * self.points + w]
    }
}

/// In ascending order a new number begins behind each gap that is wide enough.
fn classes(lengths: &[f64], tolerance: f64) -> Vec<usize> {
    let mut order: Vec<usize> = (0..lengths.len()).collect();
    order.sort_by(|&i, &j| lengths[i].total_cmp(&lengths[j]));
    let gap = gap(lengths.iter().copied().fold(0.0, f64::max), tolerance);
    let mut classes = vec![0; lengths.len()];
    for pair in order.windows(2) {
        let apart = lengths[pair[1]] - lengths[pair[0]] > gap;
        classes[pair[1]] = classes[pair[0]] + usize::from(apart);
    }
    classes
}
