//! Vectors of a few numbers, and a job's points as the register sees them: what the
//! host's own look at a set is worked out from.

use faceting_register::Job;

/// The product of two vectors.
pub fn dot(a: &[f64], b: &[f64]) -> f64 {
    a.iter().zip(b).map(|(x, y)| x * y).sum()
}

/// From b to a.
pub fn minus(a: &[f64], b: &[f64]) -> Vec<f64> {
    a.iter().zip(b).map(|(x, y)| x - y).collect()
}

/// The length of a vector.
pub fn norm(a: &[f64]) -> f64 {
    dot(a, a).sqrt()
}

/// The points, flattened by the job's offset and basis.
pub fn flattened(job: &Job) -> Vec<Vec<f64>> {
    let flatten = |point: &Vec<f64>| {
        let away = minus(point, &job.offset);
        job.basis.iter().map(|vector| dot(&away, vector)).collect()
    };
    job.points.iter().map(flatten).collect()
}
