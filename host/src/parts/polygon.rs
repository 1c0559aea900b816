//! A polygon measured in its own plane: sides, corners, how often it winds around, and
//! on which side of each edge it lies.

use std::f64::consts::PI;

use super::cycles::Cycle;
use super::frame::Frame;

/// A place in a plane.
pub type Place = [f64; 2];

/// Angles that add up to a whole number of turns miss it by no more, in turns.
const SLACK: f64 = 1e-6;

/// A closed way in its plane.
#[derive(Clone, Debug)]
pub struct Polygon {
    /// Its points, in their order.
    pub cycle: Cycle,
    /// Where they are in the plane.
    pub places: Vec<Place>,
    /// The lengths of its sides: the first joins the first two points.
    pub sides: Vec<f64>,
    /// The angles at its points, in degrees: inside it where it winds around
    /// something, else what lies between the two edges.
    pub corners: Vec<f64>,
    /// How often it winds around, counted as positive; 0 for a bow tie.
    pub turning: usize,
    /// For each side, where the polygon lies beside it: to the left (1) or right (-1)
    /// along the whole of it, or neither.
    pub inner: Vec<Option<f64>>,
    /// Whether two of its sides cross.
    pub crosses: bool,
}

/// A part of a side.
pub struct Stretch {
    /// Where it begins and ends.
    pub ends: [Place; 2],
    /// Whether the polygon winds around one side of it alone, so that it is part of its
    /// outline.
    pub outline: bool,
}

impl Polygon {
    /// A way through the points of a plane; none where two neighbours coincide or the
    /// angles do not add up.
    pub fn of(cycle: &[u32], frame: &Frame, points: &[Vec<f64>]) -> Option<Polygon> {
        let flat = |&point: &u32| frame.place(&points[point as usize]);
        let places: Vec<Place> = cycle.iter().map(flat).collect();
        let sides: Vec<f64> = (0..places.len())
            .map(|i| length(side(&places, i)))
            .collect();
        if sides.contains(&0.0) {
            return None;
        }
        let turns = turns(&places);
        let around = whole(turns.iter().sum::<f64>() / (2.0 * PI))?;
        let corner = |turn: &f64| match around {
            0 => 180.0 - turn.abs().to_degrees(),
            _ => 180.0 - turn.to_degrees() * f64::from(around.signum()),
        };
        Some(Polygon {
            cycle: cycle.to_vec(),
            corners: turns.iter().map(corner).collect(),
            turning: around.unsigned_abs() as usize,
            inner: (0..places.len()).map(|i| inner(&places, i)).collect(),
            crosses: (0..places.len()).any(|i| !crossings(&places, i, SLACK).is_empty()),
            sides,
            places,
        })
    }

    /// Where the polygon lies beside a side, as a direction in its plane.
    pub fn inward(&self, i: usize) -> Option<Place> {
        let ([x, y], towards) = (side(&self.places, i), self.inner[i]?);
        let scale = towards / self.sides[i];
        Some([-y * scale, x * scale])
    }

    /// A side as the stretches between what crosses it; none where the angles do not add
    /// up.
    pub fn stretches(&self, i: usize) -> Option<Vec<Stretch>> {
        let at = |t: f64| {
            let ([a, b], [x, y]) = (self.places[i], side(&self.places, i));
            [a + t * x, b + t * y]
        };
        let stretch = |pair: &[f64]| {
            let left = left_of(&self.places, i, at((pair[0] + pair[1]) / 2.0))?;
            Some(Stretch {
                ends: [at(pair[0]), at(pair[1])],
                outline: left == 0 || left == 1,
            })
        };
        let stops = stops(&self.places, i);
        let long = stops.windows(2).filter(|pair| pair[1] - pair[0] > SLACK);
        long.map(stretch).collect()
    }

    /// The number of the side between two points.
    pub fn side_between(&self, [a, b]: [u32; 2]) -> Option<usize> {
        let ends = |i: usize| (self.cycle[i], self.cycle[(i + 1) % self.cycle.len()]);
        (0..self.cycle.len()).find(|&i| ends(i) == (a, b) || ends(i) == (b, a))
    }
}

/// From a point to the next.
fn side(places: &[Place], i: usize) -> Place {
    away(places[i], places[(i + 1) % places.len()])
}

fn away([a, b]: Place, [c, d]: Place) -> Place {
    [c - a, d - b]
}

fn length([x, y]: Place) -> f64 {
    x.hypot(y)
}

/// Twice the area between two directions, positive where the second is to the left.
fn cross([a, b]: Place, [c, d]: Place) -> f64 {
    a * d - b * c
}

/// From one direction to another, positive to the left.
fn angle(from: Place, to: Place) -> f64 {
    cross(from, to).atan2(from[0] * to[0] + from[1] * to[1])
}

/// How far the way turns at each of its points.
fn turns(places: &[Place]) -> Vec<f64> {
    let count = places.len();
    let turn = |i: usize| angle(side(places, (i + count - 1) % count), side(places, i));
    (0..count).map(turn).collect()
}

fn whole(number: f64) -> Option<i32> {
    let near = number.round();
    ((number - near).abs() < SLACK).then_some(near as i32)
}

/// How far along a side others cross it, ascending; at least so far from their own
/// ends, so that less than nothing counts those that only touch it.
fn crossings(places: &[Place], i: usize, far: f64) -> Vec<f64> {
    let (count, from, along) = (places.len(), places[i], side(places, i));
    let crossing = |j: usize| {
        let apart = j != i && (j + 1) % count != i && (i + 1) % count != j;
        let (start, other) = (away(from, places[j]), side(places, j));
        let slant = cross(along, other);
        let (t, u) = (cross(start, other) / slant, cross(start, along) / slant);
        let within = |x: f64, far: f64| x > far && x < 1.0 - far;
        (apart && within(t, SLACK) && within(u, far)).then_some(t)
    };
    let mut found: Vec<f64> = (0..count).filter_map(crossing).collect();
    found.sort_by(f64::total_cmp);
    found
}

/// Both ends of a side, and where others cross or touch it.
fn stops(places: &[Place], i: usize) -> Vec<f64> {
    let mut stops = crossings(places, i, -SLACK);
    stops.insert(0, 0.0);
    stops.push(1.0);
    stops
}

/// The side of an edge on which the polygon winds around more often, along the whole
/// edge. A bow tie's crossing edges have it on either side by turns.
fn inner(places: &[Place], i: usize) -> Option<f64> {
    let (from, along) = (places[i], side(places, i));
    let stops = stops(places, i);
    let middle = |pair: &[f64]| {
        let t = (pair[0] + pair[1]) / 2.0;
        [from[0] + t * along[0], from[1] + t * along[1]]
    };
    let stretch = |pair: &&[f64]| pair[1] - pair[0] > SLACK;
    let mut found = stops.windows(2).filter(stretch).map(|pair| {
        let left = left_of(places, i, middle(pair))?;
        Some(if left > 0 { 1.0 } else { -1.0 })
    });
    let first = found.next()??;
    found.all(|other| other == Some(first)).then_some(first)
}

/// How often the polygon winds around what lies just to the left of a place on its side.
fn left_of(places: &[Place], i: usize, place: Place) -> Option<i32> {
    let seen = |j: usize| {
        let (a, b) = (places[j], places[(j + 1) % places.len()]);
        angle(away(place, a), away(place, b))
    };
    let others: f64 = (0..places.len()).filter(|&j| j != i).map(seen).sum();
    whole((others + PI) / (2.0 * PI))
}

#[cfg(test)]
mod tests {
    use super::*;

    fn polygon(places: &[Place]) -> Polygon {
        let points: Vec<Vec<f64>> = places.iter().map(|place| place.to_vec()).collect();
        let frame = Frame::through(&points.iter().collect::<Vec<_>>(), 1e-7).expect("a plane");
        let cycle: Vec<u32> = (0..places.len() as u32).collect();
        Polygon::of(&cycle, &frame, &points).expect("a polygon")
    }

    fn near(found: &[f64], wanted: &[f64]) {
        let off = found.iter().zip(wanted).map(|(a, b)| (a - b).abs());
        assert!(
            found.len() == wanted.len() && off.fold(0.0, f64::max) < 1e-9,
            "{found:?}"
        );
    }

    #[test]
    fn a_dart_has_a_corner_above_180_and_lies_on_one_side_of_each_edge() {
        let dart = polygon(&[[0., 0.], [2., -1.], [1., 0.], [2., 1.]]);
        let tip = 0.5_f64.atan().to_degrees();
        near(&dart.corners, &[2.0 * tip, 45.0 - tip, 270.0, 45.0 - tip]);
        assert_eq!((dart.turning, dart.crosses), (1, false));
        let sides: Vec<f64> = dart.inner.iter().flatten().copied().collect();
        assert!(sides == [1.0; 4] || sides == [-1.0; 4], "{:?}", dart.inner);
    }

    #[test]
    fn a_bow_tie_changes_sides_along_its_crossing_edges() {
        let tie = polygon(&[[0., 0.], [2., 0.], [0., 1.], [2., 1.]]);
        assert_eq!((tie.turning, tie.crosses), (0, true));
        assert_eq!(
            tie.inner.iter().map(Option::is_some).collect::<Vec<_>>(),
            [true, false, true, false]
        );
        near(&tie.sides, &[2.0, 5_f64.sqrt(), 2.0, 5_f64.sqrt()]);
        near(&tie.corners, &[0.5_f64.atan().to_degrees(); 4]);
    }

    #[test]
    fn stars_wind_around_and_lie_towards_their_centre() {
        for (points, step, corner) in [
            (5, 2, 36.0),
            (7, 2, 540.0 / 7.0),
            (7, 3, 180.0 / 7.0),
            (8, 3, 45.0),
        ] {
            let place = |i: usize| {
                let angle = 2.0 * PI * (i * step) as f64 / points as f64;
                [angle.cos(), angle.sin()]
            };
            let star = polygon(&(0..points).map(place).collect::<Vec<_>>());
            assert_eq!((star.turning, star.crosses), (step, true));
            near(&star.corners, &vec![corner; points]);
            let first = star.inner[0].expect("one side of the first edge");
            assert_eq!(star.inner, vec![Some(first); points]);
            let [x, y] = star.inward(0).expect("a direction");
            let (a, b) = (star.places[0], star.places[1]);
            let centre = star
                .places
                .iter()
                .fold([0.0; 2], |[s, t], [u, v]| [s + u, t + v]);
            let way = [
                centre[0] / points as f64 - (a[0] + b[0]) / 2.0,
                centre[1] / points as f64 - (a[1] + b[1]) / 2.0,
            ];
            assert!(x * way[0] + y * way[1] > 0.0);
        }
    }

    /// An edge that another polygon's corner touches is looked at on both stretches.
    #[test]
    fn a_corner_on_an_edge_parts_it() {
        let touched = polygon(&[[0., 0.], [4., 0.], [4., -1.], [2., 0.], [1., 2.]]);
        assert_eq!(touched.inner[0], None);
        assert!(touched.inner[4].is_some());
    }
}
