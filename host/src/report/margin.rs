//! How clearly points lie on planes or off them: the farthest point that counts as
//! lying on a line or plane through others, and the nearest that counts as lying off.

use super::flat::Flat;

/// A point, the points that a line or plane is fitted to, and how far it is from it.
#[derive(Clone, Debug, PartialEq)]
pub struct Distance {
    /// The distance.
    pub length: f64,
    /// The point.
    pub point: usize,
    /// The points of the line or plane.
    pub of: Vec<usize>,
}

/// Both sides of the border.
#[derive(Clone, Debug, PartialEq)]
pub struct Margin {
    /// The farthest that counts as on it; none where no line or plane holds more
    /// points than it is fitted to.
    pub on: Option<Distance>,
    /// The nearest that counts as off it; none where everything lies in one.
    pub off: Option<Distance>,
    /// Distances below it count as none.
    pub border: f64,
}

/// A distance so many times below the border is clearly on the plane.
const CLEARLY_ON: f64 = 10.0;

/// One so many times above it is clearly off,
const CLEARLY_OFF: f64 = 1_000.0;

/// and so is one from here on that is clear of the border at all: who names a large
/// tolerance says how good the coordinates are.
const FAR: f64 = 1e-4;

impl Margin {
    /// Over the lines, planes and so on below the points' own space, through each
    /// two, three and so on of them. At rank 2 there are none.
    pub fn of(points: &[Vec<f64>], dimensions: usize, border: f64) -> Margin {
        let mut margin = Margin {
            on: None,
            off: None,
            border,
        };
        for first in 0..points.len() {
            margin.extend(points, &mut vec![first], dimensions);
        }
        margin
    }

    /// Goes on with each tuple that begins with these points and still fits.
    fn extend(&mut self, points: &[Vec<f64>], tuple: &mut Vec<usize>, dimensions: usize) {
        if tuple.len() == dimensions {
            return;
        }
        let next = tuple.last().map_or(0, |last| last + 1);
        for point in next..points.len() {
            tuple.push(point);
            let flat = Flat::through(tuple.iter().map(|&p| &points[p]), self.border);
            if flat.dimension() + 1 == tuple.len() {
                self.measure(points, tuple, &flat);
                self.extend(points, tuple, dimensions);
            }
            tuple.pop();
        }
    }

    fn measure(&mut self, points: &[Vec<f64>], tuple: &[usize], flat: &Flat) {
        for (point, place) in points.iter().enumerate() {
            if tuple.contains(&point) {
                continue;
            }
            let length = flat.distance(place);
            let (side, beyond) = match length < self.border {
                true => (&mut self.on, 1.0),
                false => (&mut self.off, -1.0),
            };
            let farther = |kept: &Distance| length * beyond > kept.length * beyond;
            if side.as_ref().is_none_or(farther) {
                *side = Some(Distance {
                    length,
                    point,
                    of: tuple.to_vec(),
                });
            }
        }
    }

    /// The farthest on it, where it is so near to the border that a rounded coordinate
    /// may have put the point on the wrong side.
    pub fn barely_on(&self) -> Option<&Distance> {
        let barely = |on: &&Distance| on.length * CLEARLY_ON > self.border;
        self.on.as_ref().filter(barely)
    }

    /// The nearest off it, likewise.
    pub fn barely_off(&self) -> Option<&Distance> {
        let far = FAR.max(CLEARLY_ON * self.border);
        let clear = (CLEARLY_OFF * self.border).min(far);
        self.off.as_ref().filter(|off| off.length < clear)
    }
}
