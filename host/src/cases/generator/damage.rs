//! Jobs that break the register's rules: both sides of every bound on the
//! header, the floats and the rows; bytes altered anywhere; wrong lengths.

use faceting_register::bounds::TOLERANCES;
use faceting_register::job::{identity_row, unit_vectors, TOLERANCE_VERSION};
use faceting_register::Job;

use super::kinds::{small_job, wide, wide_bytes, Draft};
use super::rng::Rng;
use super::symmetry;

/// One field of the header at or beyond a bound, all lengths as they then should be.
pub fn counts(rng: &mut Rng) -> Draft {
    let mut job = small_job(rng);
    match rng.below(5) {
        0 => job.version = *rng.pick(&[0, 1, 2, 3, 4, 257, 65_535]),
        1 => set_rank(&mut job, *rng.pick(&[1, 2, 3, 4, 5, 6])),
        2 => set_dimension(&mut job, rng.within(0, 6)),
        3 => set_points(&mut job, *rng.pick(&[0, 1, 2, 19, 20, 21, 22])),
        _ => set_rows(rng, &mut job),
    }
    job.budget = job.budget.min(400);
    wide(job)
}

fn set_rank(job: &mut Job, rank: u8) {
    job.rank = rank;
    job.basis = unit_vectors(usize::from(rank) - 1, usize::from(job.dimension));
}

fn set_dimension(job: &mut Job, dimension: usize) {
    job.dimension = dimension as u8;
    job.offset = vec![0.0; dimension];
    job.basis = unit_vectors(job.basis.len(), dimension);
    job.points
        .iter_mut()
        .for_each(|point| point.resize(dimension, 0.0));
}

/// Further points lie on a curve, so that few of them share a plane or line.
fn set_points(job: &mut Job, points: usize) {
    let point = |i: usize| {
        (1..=job.dimension.into())
            .map(|p| (i as f64 / 4.0).powi(p))
            .collect()
    };
    let more: Vec<Vec<f64>> = (job.points.len()..points).map(point).collect();
    job.points.extend(more);
    job.points.truncate(points);
    job.rows = vec![identity_row(points)];
}

fn set_rows(rng: &mut Rng, job: &mut Job) {
    let n = job.points.len();
    let count = *rng.pick(&[0, 1, 2, 119, 120, 121, 122, 300]);
    job.rows = (0..count)
        .map(|row| match row {
            0 => identity_row(n),
            _ => symmetry::permutation(rng, n),
        })
        .collect();
}

/// A float at its bound, one step beyond it, or no number at all.
pub fn numbers(rng: &mut Rng) -> Draft {
    let mut job = small_job(rng);
    job.budget = job.budget.min(400);
    let never = [f64::NAN, f64::INFINITY, f64::NEG_INFINITY];
    if rng.once_in(6) {
        job.version = TOLERANCE_VERSION;
        job.tolerance = tolerance(rng);
        return wide(job);
    }
    if rng.once_in(3) {
        let length = match rng.once_in(3) {
            true => *rng.pick(&never),
            false => beside(rng, 131_072.0, &[0.0, -0.0, -5e-324, -1.0]),
        };
        let field = if rng.once_in(2) {
            &mut job.min
        } else {
            &mut job.max
        };
        *field = Some(length);
        return wide(job);
    }
    let (bound, places): (f64, Vec<&mut f64>) = match rng.below(3) {
        0 => (65_536.0, job.points.iter_mut().flatten().collect()),
        1 => (65_536.0, job.offset.iter_mut().collect()),
        _ => (1.0, job.basis.iter_mut().flatten().collect()),
    };
    let value = match rng.once_in(3) {
        true => *rng.pick(&never),
        false => {
            let sign = if rng.once_in(2) { -1.0 } else { 1.0 };
            sign * beside(rng, bound, &[5e-324, 0.0])
        }
    };
    let place = rng.below(places.len().max(1));
    places
        .into_iter()
        .skip(place)
        .take(1)
        .for_each(|x| *x = value);
    wide(job)
}

/// An end of the range of tolerances, the next float on either side of it, or one that
/// is refused.
pub fn tolerance(rng: &mut Rng) -> f64 {
    const NEVER: [f64; 6] = [0.0, -0.0, -1e-7, f64::NAN, f64::INFINITY, f64::NEG_INFINITY];
    let (least, most) = TOLERANCES.into_inner();
    let end = *rng.pick(&[least, most]);
    beside(rng, end, &NEVER)
}

fn beside(rng: &mut Rng, bound: f64, others: &[f64]) -> f64 {
    match rng.below(4) {
        0 => bound,
        1 => bound.next_up(),
        2 => bound.next_down(),
        _ => *rng.pick(others),
    }
}

/// Row 0 another permutation, or a row with a repeated or too large image.
pub fn rows(rng: &mut Rng) -> Draft {
    let mut job = small_job(rng);
    let n = job.points.len();
    job.rows.push(symmetry::permutation(rng, n));
    let row = match rng.once_in(2) {
        true => 0,
        false => rng.below(job.rows.len()),
    };
    match rng.below(3) {
        0 => job.rows[row] = symmetry::permutation(rng, n),
        _ => job.rows[row][rng.below(n)] = *rng.pick(&[0, 1, n as u8 - 1, n as u8, 255]),
    }
    wide(job)
}

/// Any byte, with any other value; the budget stays low where it survives.
pub fn bytes(rng: &mut Rng) -> Draft {
    let mut job = small_job(rng);
    job.limit = rng.once_in(2).then_some(3);
    job.max = rng.once_in(3).then_some(1.5);
    let mut bytes = job.write();
    let place = match rng.below(3) {
        0 => rng.below(11),
        _ => rng.below(bytes.len()),
    };
    bytes[place] ^= match rng.once_in(2) {
        true => 1 << rng.below(8),
        false => rng.within(1, 255) as u8,
    };
    keep_budget_low(&mut bytes);
    wide_bytes(bytes)
}

/// A damaged budget may ask for more time than a case should take.
fn keep_budget_low(bytes: &mut Vec<u8>) {
    if let Some(mut job) = Job::read(bytes) {
        job.budget = job.budget.min(5_000);
        *bytes = job.write();
    }
}

/// Cut off anywhere, or longer by a few bytes.
pub fn length(rng: &mut Rng) -> Draft {
    let mut bytes = small_job(rng).write();
    match rng.below(4) {
        0 => bytes.truncate(rng.below(12)),
        1 => bytes.truncate(bytes.len() - 1),
        2 => bytes.truncate(rng.below(bytes.len())),
        _ => bytes.extend(vec![rng.below(3) as u8; rng.within(1, 9)]),
    }
    wide_bytes(bytes)
}
