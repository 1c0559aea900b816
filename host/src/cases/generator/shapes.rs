//! Point sets: polygons, polyhedra, curves, lattices, crowded lines and sets
//! that are nearly degenerate.

use super::rng::{turned, Rng};

/// The points of a set.
pub type Points = Vec<Vec<f64>>;

/// A regular polygon with its first corner at (1, 0).
pub fn polygon(corners: usize) -> Points {
    let corner = |k| {
        let (x, y) = turned(k as f64 / corners as f64);
        vec![x, y]
    };
    (0..corners).map(corner).collect()
}

/// (i, i²) or (i, i², i³): no three on a line, no four in a plane.
pub fn moment_curve(points: usize, dimension: usize) -> Points {
    let point = |i: usize| {
        (1..=dimension)
            .map(|power| (i as f64).powi(power as i32))
            .collect()
    };
    (0..points).map(point).collect()
}

/// Two polygons one above the other, the upper one turned by that part of a step.
pub fn prism(corners: usize, twist: f64) -> Points {
    let corner = |k: usize, level: f64, twist: f64| {
        let (x, y) = turned((k as f64 + twist) / corners as f64);
        vec![x, y, level]
    };
    let lower = (0..corners).map(|k| corner(k, -0.5, 0.0));
    lower
        .chain((0..corners).map(|k| corner(k, 0.5, twist)))
        .collect()
}

/// A pyramid over a regular polygon.
pub fn pyramid(corners: usize) -> Points {
    let mut points: Points = polygon(corners);
    points.iter_mut().for_each(|point| point.push(0.0));
    points.push(vec![0.0, 0.0, 1.0]);
    points
}

/// All points that arise from one by cyclic moves and changes of sign.
fn cyclic(from: [f64; 3]) -> Points {
    let mut points = Points::new();
    for step in 0..3 {
        for signs in 0..8 {
            let sign = |axis: usize| if signs >> axis & 1 == 1 { -1.0 } else { 1.0 };
            let number = |axis: usize| sign(axis) * from[(axis + step) % 3];
            // The sum with +0 leaves no -0, so equal points are found equal.
            let point: Vec<f64> = (0..3).map(|axis| number(axis) + 0.0).collect();
            if !points.contains(&point) {
                points.push(point);
            }
        }
    }
    points
}

/// The corners of a regular tetrahedron.
pub fn tetrahedron() -> Points {
    let even = |point: &Vec<f64>| point.iter().product::<f64>() > 0.0;
    cube().into_iter().filter(even).collect()
}

/// The corners of a cube.
pub fn cube() -> Points {
    cyclic([1.0, 1.0, 1.0])
}

/// The corners of a regular octahedron.
pub fn octahedron() -> Points {
    cyclic([0.0, 0.0, 1.0])
}

/// The corners of a cuboctahedron.
pub fn cuboctahedron() -> Points {
    cyclic([0.0, 1.0, 1.0])
}

/// The golden ratio.
pub fn golden() -> f64 {
    (1.0 + 5.0_f64.sqrt()) / 2.0
}

/// The corners of a regular icosahedron.
pub fn icosahedron() -> Points {
    cyclic([0.0, 1.0, golden()])
}

/// The corners of a regular dodecahedron.
pub fn dodecahedron() -> Points {
    let mut points = cube();
    points.extend(cyclic([0.0, golden(), 1.0 / golden()]));
    points
}

/// Different points with whole coordinates from 0 to `side` - 1; at most that many.
pub fn lattice(rng: &mut Rng, points: usize, dimension: usize, side: usize) -> Points {
    let mut set = Points::new();
    for _ in 0..20 * points {
        let point: Vec<f64> = (0..dimension).map(|_| rng.below(side) as f64).collect();
        if set.len() < points && !set.contains(&point) {
            set.push(point);
        }
    }
    set
}

/// Some points on one line and a few beside it, in any order.
pub fn crowded(rng: &mut Rng, points: usize, dimension: usize) -> Points {
    let on_line = rng.within(3, points.max(3));
    let mut set = lattice(rng, points - on_line.min(points), dimension, 4);
    let step: Vec<f64> = (0..dimension).map(|_| rng.below(3) as f64).collect();
    let place = |i: usize| step.iter().map(|x| x * i as f64 + 1.0).collect();
    set.extend((0..on_line.min(points)).map(place));
    rng.shuffle(&mut set);
    set
}

/// Points on the floor, some of them raised by just the tolerance or by the next
/// float above or below it, and perhaps one that is clear of it.
pub fn at_tolerance(rng: &mut Rng, points: usize, dimension: usize, tolerance: f64) -> Points {
    let mut set = lattice(rng, points, dimension - 1, 4);
    let beside = [tolerance, tolerance.next_up(), tolerance.next_down()];
    for point in &mut set {
        point.push(match rng.below(8) {
            0 => 1.0,
            1 | 2 => *rng.pick(&beside),
            3 => -rng.pick(&beside),
            _ => 0.0,
        });
    }
    set
}

/// The plane through points [4.4], as it is made and measured with plain
/// operations.
struct Plane {
    offset: Vec<f64>,
    basis: Vec<Vec<f64>>,
}

fn dot(a: &[f64], b: &[f64]) -> f64 {
    a.iter().zip(b).fold(0.0, |sum, (a, b)| sum + a * b)
}

impl Plane {
    fn through(points: &[Vec<f64>], tolerance: f64) -> Self {
        let mut plane = Self {
            offset: points[0].clone(),
            basis: Vec::new(),
        };
        for point in &points[1..] {
            let residual = plane.residual(point);
            let norm = dot(&residual, &residual).sqrt();
            if norm > tolerance {
                plane
                    .basis
                    .push(residual.iter().map(|x| x / norm).collect());
            }
        }
        plane
    }

    fn residual(&self, point: &[f64]) -> Vec<f64> {
        let minus = |a: &[f64], b: &[f64]| a.iter().zip(b).map(|(a, b)| a - b).collect::<Vec<_>>();
        let from = minus(point, &self.offset);
        let mut near = self.offset.clone();
        for vector in &self.basis {
            let along = dot(&from, vector);
            near.iter_mut()
                .zip(vector)
                .for_each(|(x, b)| *x += b * along);
        }
        minus(point, &near)
    }

    fn distance(&self, point: &[f64]) -> f64 {
        let residual = self.residual(point);
        dot(&residual, &residual).sqrt()
    }
}

/// Points askew, the last of them as far from the plane of the others as the
/// tolerance, to the last bit of a coordinate: another order of additions, or
/// another rounding, puts it on the other side as often as not.
pub fn brink(rng: &mut Rng, dimension: usize, tolerance: f64) -> Points {
    let size = *rng.pick(&[1.0, 1.0, 3.0, 100.0]);
    let mut points: Points = (0..dimension)
        .map(|_| (0..dimension).map(|_| size * rng.signed()).collect())
        .collect();
    let plane = Plane::through(&points, tolerance);
    // A sum of the others with random parts, which add up to one, lies on the plane.
    let parts: Vec<f64> = (1..dimension).map(|_| rng.signed()).collect();
    let first = 1.0 - parts.iter().sum::<f64>();
    let parts: Vec<f64> = std::iter::once(first).chain(parts).collect();
    let on_plane = |axis: usize| {
        let number = |(point, part): (&Vec<f64>, &f64)| point[axis] * part;
        points.iter().zip(&parts).map(number).sum()
    };
    let mut last: Vec<f64> = (0..dimension).map(on_plane).collect();
    let axis = rng.below(dimension);
    last[axis] = at_flip(last[axis], |x| {
        let mut moved = last.clone();
        moved[axis] = x;
        plane.distance(&moved) < tolerance
    });
    last[axis] = match rng.below(4) {
        0 => last[axis].next_up(),
        1 => last[axis].next_down(),
        _ => last[axis],
    };
    points.push(last);
    points
}

/// The last float from there on for which it holds.
fn at_flip(from: f64, holds: impl Fn(f64) -> bool) -> f64 {
    let (mut low, mut high) = (from, from + 1.0);
    if !holds(low) || holds(high) {
        return from;
    }
    loop {
        let middle = low + (high - low) / 2.0;
        if middle <= low || middle >= high {
            return low;
        }
        match holds(middle) {
            true => low = middle,
            false => high = middle,
        }
    }
}

/// Moves coordinates by about the size, each with even chance.
pub fn nudged(rng: &mut Rng, mut points: Points, size: f64) -> Points {
    for number in points.iter_mut().flatten() {
        if rng.once_in(2) {
            *number += size * rng.signed();
        }
    }
    points
}

/// The points, so many times as large.
pub fn scaled(mut points: Points, factor: f64) -> Points {
    points
        .iter_mut()
        .flatten()
        .for_each(|number| *number *= factor);
    points
}
