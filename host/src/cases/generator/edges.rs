//! Jobs that reach the bounds on orbits, facets and entries exactly or pass them
//! by one, and jobs whose choices have several orders.

use faceting_register::Job;

use super::findings::{digits, ENTRIES, PLANES, TWICE, TWO_ORDERS};
use super::kinds::{wide, Draft};
use super::rng::Rng;
use super::shapes::{self, Points};

/// Enough for every job here to come to its end.
const BUDGET: u32 = 60_000;

/// A power of two: lengths are scaled by it without rounding.
fn some_scale(rng: &mut Rng) -> f64 {
    *rng.pick(&[0.25, 0.5, 1.0, 2.0, 4.0])
}

/// The found set scaled and moved, its axes in another order: nothing that is
/// counted changes.
fn placed(rng: &mut Rng, set: &'static str, scale: f64) -> Points {
    let shift = rng.below(9) as f64 - 4.0;
    let turn = rng.below(3);
    let number = |x: &u8| scale * (f64::from(*x) + shift);
    let point = |mut digits: Vec<u8>| {
        let axes = digits.len();
        digits.rotate_left(turn % axes);
        digits.iter().map(number).collect()
    };
    digits(set).map(point).collect()
}

/// Point sets with exactly 255, 256 or 257 planes, or any large set.
pub fn orbits(rng: &mut Rng) -> Draft {
    let scale = some_scale(rng);
    let points = match rng.once_in(3) {
        true => {
            let count = rng.within(12, 20);
            shapes::lattice(rng, count, 3, 6)
        }
        false => {
            let (_, set) = *rng.pick(PLANES);
            placed(rng, set, scale)
        }
    };
    wide(Job {
        limit: Some(rng.below(3) as u32),
        budget: 5_000,
        ..Job::usual(4, points)
    })
}

/// A heptagon and an apex: the heptagon has as many facetings as the limit
/// allows, and 21 triangles join them, so the limit decides the sum.
pub fn facets(rng: &mut Rng) -> Draft {
    let mut points = shapes::moment_curve(7, 2);
    points.iter_mut().for_each(|point| point.push(0.0));
    points.push(vec![2.0, 7.0, 1.0]);
    wide(Job {
        limit: Some(*rng.pick(&[1_002, 1_003, 1_004])),
        budget: BUDGET,
        ..Job::usual(4, points)
    })
}

/// Sets with more than 1,024 entries, which the limit stops before or not, and
/// sets that have just so many without a limit.
pub fn entries(rng: &mut Rng) -> Draft {
    let limit = *rng.pick(&[Some(1_023), Some(1_024), Some(1_025), None]);
    let (rank, points) = match rng.below(4) {
        0 => (3, shapes::polygon(7)),
        1 => (4, shapes::moment_curve(7, 3)),
        _ => return counted_entries(rng),
    };
    wide(Job {
        limit,
        budget: BUDGET,
        ..Job::usual(rank, points)
    })
}

fn counted_entries(rng: &mut Rng) -> Draft {
    let scale = some_scale(rng);
    let (_, square, set) = *rng.pick(ENTRIES);
    wide(Job {
        max: Some(scale * f64::from(square).sqrt()),
        budget: BUDGET,
        ..Job::usual(3, placed(rng, set, scale))
    })
}

/// Choices that are emitted more than once.
pub fn orders(rng: &mut Rng) -> Draft {
    let scale = some_scale(rng);
    let (set, rows) = *rng.pick(&[TWICE, TWO_ORDERS]);
    wide(Job {
        rows: digits(rows).collect(),
        budget: 5_000,
        ..Job::usual(4, placed(rng, set, scale))
    })
}
