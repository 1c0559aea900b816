//! How a set is looked at: where each of its points is in a picture. In a plane as it
//! is drawn; in space along an axis of its turns, so that the picture shows them.

use std::f64::consts::FRAC_PI_2;

use faceting_register::job::{compose, is_identity};
use faceting_register::Job;

use crate::geometry::{dot, flattened, minus, norm};
use crate::symmetry::Symmetry;

/// Right, up and towards the eye, within 1 of the middle.
pub type Seen = [f64; 3];

/// Places that are no farther apart look like one.
const NEAR: f64 = 0.02;

/// How far a set is tipped where it would hide much of itself, and how it is turned
/// and tipped where it has no axis, in radians.
const TIPPED: f64 = 0.35;
const TURNED: f64 = 0.45;

/// The places of all points of a job.
pub fn view(job: &Job) -> Vec<Seen> {
    let points = fitted(centred(&flattened(job)));
    match job.rank {
        0..=3 => points,
        _ => in_space(job, &points),
    }
}

/// About the middle of the points, with three coordinates.
fn centred(points: &[Vec<f64>]) -> Vec<Seen> {
    let count = points.len().max(1) as f64;
    let number = |point: &Vec<f64>, i: usize| point.get(i).copied().unwrap_or(0.0);
    let middle = |i: usize| points.iter().map(|p| number(p, i)).sum::<f64>() / count;
    let middle = [0, 1, 2].map(middle);
    let place = |point: &Vec<f64>| [0, 1, 2].map(|i| number(point, i) - middle[i]);
    points.iter().map(place).collect()
}

/// Scaled so that the farthest point is 1 away.
fn fitted(points: Vec<Seen>) -> Vec<Seen> {
    let size = points.iter().map(|p| norm(p)).fold(0.0, f64::max);
    let scale = if size > 0.0 { 1.0 / size } else { 1.0 };
    let scaled = |point: Seen| point.map(|x| x * scale);
    points.into_iter().map(scaled).collect()
}

/// Along the axis that hides the fewest points behind others, and of several such the
/// one with the most turns; where it still hides more than one point, the set stands
/// upright on that axis and is tipped a little.
fn in_space(job: &Job, points: &[Seen]) -> Vec<Seen> {
    let along = |(axis, order): (Seen, usize)| {
        let seen = seen_along(points, axis);
        (distinct(&seen), order, seen)
    };
    let mut best: Option<(usize, usize, Vec<Seen>)> = None;
    for found in axes(job, points).into_iter().map(along) {
        if best
            .as_ref()
            .is_none_or(|kept| (found.0, found.1) > (kept.0, kept.1))
        {
            best = Some(found);
        }
    }
    match best {
        None => tipped(&turned(points, TURNED), TIPPED),
        Some((apart, _, seen)) if apart + 1 >= points.len() => upright(&seen),
        Some((_, _, seen)) => tipped(&upright(&seen), TIPPED - FRAC_PI_2),
    }
}

/// The axes of the turns among the rows, with how often they turn; from three on.
fn axes(job: &Job, points: &[Seen]) -> Vec<(Seen, usize)> {
    let Some(symmetry) = Symmetry::of(job) else {
        return Vec::new();
    };
    let turns = job.rows.iter().filter(|row| symmetry.is_turn(row));
    let axis = |row: &Vec<u8>| {
        let powers = powers(row);
        (powers.len() > 2).then(|| Some((axis(points, &powers)?, powers.len())))?
    };
    turns.filter_map(axis).collect()
}

fn powers(row: &[u8]) -> Vec<Vec<u8>> {
    let mut found = vec![row.to_vec()];
    while found.last().is_some_and(|last| !is_identity(last)) {
        found.push(compose(&found[found.len() - 1], row));
    }
    found
}

/// What the images of a point under a turn have in common lies on its axis.
fn axis(points: &[Seen], powers: &[Vec<u8>]) -> Option<Seen> {
    let mean = |v: usize| {
        let images = powers.iter().map(|row| points[usize::from(row[v])]);
        images.fold([0.0; 3], |[a, b, c], [x, y, z]| [a + x, b + y, c + z])
    };
    let found = (0..points.len()).map(mean).find(|sum| norm(sum) > NEAR)?;
    let length = norm(&found);
    Some(found.map(|x| x / length))
}

/// The points as seen from far out along an axis.
fn seen_along(points: &[Seen], axis: Seen) -> Vec<Seen> {
    let least = |i: &usize, j: &usize| axis[*i].abs().total_cmp(&axis[*j].abs());
    let mut side = [0.0; 3];
    side[(0..3).min_by(least).unwrap_or(0)] = 1.0;
    let right = unit(cross(side, axis));
    let up = cross(axis, right);
    let place = |p: &Seen| [dot(p, &right), dot(p, &up), dot(p, &axis)];
    points.iter().map(place).collect()
}

fn cross([a, b, c]: Seen, [x, y, z]: Seen) -> Seen {
    [b * z - c * y, c * x - a * z, a * y - b * x]
}

fn unit(v: Seen) -> Seen {
    let length = norm(&v);
    v.map(|x| x / length)
}

/// How many places are seen apart.
fn distinct(points: &[Seen]) -> usize {
    let apart = |p: &Seen, q: &Seen| norm(&minus(&p[..2], &q[..2])) > NEAR;
    let first = |i: &usize| points[..*i].iter().all(|q| apart(&points[*i], q));
    (0..points.len()).filter(first).count()
}

/// Turned in the picture until the first of the points farthest from its middle is on
/// top.
fn upright(points: &[Seen]) -> Vec<Seen> {
    let far = |p: &Seen| p[0].hypot(p[1]);
    let most = points.iter().map(far).fold(0.0, f64::max);
    let Some(top) = points.iter().find(|p| far(p) > most - NEAR / 2.0) else {
        return points.to_vec();
    };
    let (sin, cos) = (top[0].atan2(top[1])).sin_cos();
    let place = |&[x, y, z]: &Seen| [cos * x - sin * y, sin * x + cos * y, z];
    points.iter().map(place).collect()
}

/// Turned about the upright, to the right.
fn turned(points: &[Seen], angle: f64) -> Vec<Seen> {
    let (sin, cos) = angle.sin_cos();
    let place = |&[x, y, z]: &Seen| [cos * x + sin * z, y, cos * z - sin * x];
    points.iter().map(place).collect()
}

/// Tipped towards the eye.
fn tipped(points: &[Seen], angle: f64) -> Vec<Seen> {
    let (sin, cos) = angle.sin_cos();
    let place = |&[x, y, z]: &Seen| [x, cos * y - sin * z, sin * y + cos * z];
    points.iter().map(place).collect()
}

#[cfg(test)]
mod tests {
    use super::*;
    use crate::format::vertex_set;

    fn seen(file: &str, text: &str) -> Vec<Seen> {
        let job = vertex_set::read(file, text.as_bytes()).remove(0).read_job();
        view(&job.expect("the example is a job"))
    }

    /// Whether a third of a turn in the picture leaves its places as they are.
    fn has_a_third_of_a_turn(places: &[Seen]) -> bool {
        let (sin, cos) = (std::f64::consts::TAU / 3.0).sin_cos();
        places.iter().all(|&[x, y, z]| {
            let image = [cos * x - sin * y, sin * x + cos * y, z];
            places
                .iter()
                .any(|place| norm(&minus(place, &image)) < 1e-9)
        })
    }

    #[test]
    fn a_cube_is_seen_along_a_diagonal_as_a_hexagon_with_its_middle() {
        let places = seen("cube.txt", include_str!("../../../examples/cube.txt"));
        assert!(has_a_third_of_a_turn(&places));
        let mut far: Vec<f64> = places.iter().map(|p| p[0].hypot(p[1])).collect();
        far.sort_by(f64::total_cmp);
        let ring = (8.0_f64).sqrt() / 3.0;
        let wanted = [0.0, 0.0, ring, ring, ring, ring, ring, ring];
        assert!(
            far.iter().zip(wanted).all(|(a, b)| (a - b).abs() < 1e-9),
            "{far:?}"
        );
        let depths: Vec<f64> = places.iter().map(|p| (p[2] * 3.0).round()).collect();
        assert_eq!(depths.iter().filter(|depth| depth.abs() == 3.0).count(), 2);
    }

    #[test]
    fn the_icosahedron_is_seen_along_an_axis_that_hides_no_point() {
        let text = include_str!("../../../examples/icosahedron.txt");
        let places = seen("icosahedron.txt", text);
        assert!(has_a_third_of_a_turn(&places));
        assert_eq!(distinct(&places), 12);
        let top = places.iter().map(|p| p[1]).fold(-1.0, f64::max);
        assert!(places.iter().any(|p| p[0].abs() < 1e-9 && p[1] == top));
    }

    #[test]
    fn a_polygon_is_seen_as_it_is_drawn_and_a_prism_stands_upright() {
        let places = seen(
            "p.txt",
            "points
0 0
4 0
4 3
0 3
",
        );
        let wanted = [
            [-0.8, -0.6, 0.0],
            [0.8, -0.6, 0.0],
            [0.8, 0.6, 0.0],
            [-0.8, 0.6, 0.0],
        ];
        let off = |(a, b): (&Seen, &Seen)| norm(&minus(a, b));
        assert!(
            places.iter().zip(&wanted).all(|pair| off(pair) < 1e-9),
            "{places:?}"
        );
        let prism = seen("p.txt", include_str!("../../../examples/prism-5.txt"));
        assert_eq!(distinct(&prism), 10);
    }
}
