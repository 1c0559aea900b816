//! The lines of a piece in millimetres: what is cut, what is folded, what is only drawn,
//! and the marks at its sides.

use super::pieces::{Drawn, Partner, Piece};
use crate::parts::names::degrees;
use crate::parts::polygon::{Place, Polygon};
use crate::parts::shapes::letter;

/// What is done along a line.
#[derive(Clone, Copy, Debug, PartialEq, Eq)]
pub enum Layer {
    /// It is cut.
    Cut,
    /// It is folded: a flap begins here.
    Fold,
    /// It lies inside the piece and is only drawn.
    Inner,
}

impl Layer {
    /// Its name in a drawing.
    pub fn name(self) -> &'static str {
        match self {
            Layer::Cut => "CUT",
            Layer::Fold => "FOLD",
            Layer::Inner => "INNER",
        }
    }
}

/// Words along a side.
pub struct Mark {
    /// The middle of their foot.
    pub place: Place,
    /// Their slope in degrees, between -90 and 90.
    pub slope: f64,
    /// Their height.
    pub size: f64,
    /// The words.
    pub words: String,
}

/// A piece as lines and marks, about its own corner, right and up.
pub struct Drawing {
    /// Lines with what is done along them.
    pub lines: Vec<(Layer, [Place; 2])>,
    /// What stands at the sides.
    pub marks: Vec<Mark>,
    /// Width and height.
    pub size: Place,
}

/// The height of marks where there is room for them, and their distance from the side.
const LETTERS: f64 = 2.5;
const GAP: f64 = 0.6;

/// How wide a letter is beside its height.
pub const WIDTH: f64 = 0.6;

/// How wide the end of a flap leans inwards, at most, in degrees.
const LEAN: f64 = 45.0;

/// A flap leaves so much of its side at least.
const TIP: f64 = 0.3;

/// The lines of a piece; one unit of the points is `scale` millimetres, and flaps are so
/// wide, 0 for none.
pub fn drawing(piece: &Piece, scale: f64, flaps: f64) -> Drawing {
    let polygon = match &piece.drawn {
        Drawn::Stick(length) => return stick(length * scale),
        Drawn::Polygon(polygon) => polygon,
    };
    let level = Level::of(polygon, scale);
    let sides = 0..polygon.sides.len();
    let lines = sides
        .clone()
        .flat_map(|i| side_lines(polygon, i, flaps / scale));
    let place = |(layer, ends): (Layer, [Place; 2])| (layer, ends.map(|end| level.place(end)));
    let lines = lines.map(place).collect();
    let marks = sides.filter_map(|i| mark(polygon, i, piece.partners[i].as_ref()?, &level));
    let marks = marks.collect();
    settled(lines, marks)
}

fn stick(length: f64) -> Drawing {
    Drawing {
        lines: vec![(Layer::Cut, [[0.0, 0.0], [length, 0.0]])],
        marks: Vec::new(),
        size: [length, 0.0],
    }
}

/// Turns and scales a polygon so that its first side lies level at the bottom.
struct Level {
    scale: f64,
    turn: Place,
}

impl Level {
    fn of(polygon: &Polygon, scale: f64) -> Level {
        let ([a, b], [c, d]) = (polygon.places[0], polygon.places[1]);
        let towards = polygon.inner[0].unwrap_or(1.0) / polygon.sides[0];
        Level {
            scale,
            turn: [(c - a) * towards, (d - b) * towards],
        }
    }

    fn place(&self, [x, y]: Place) -> Place {
        let [cos, sin] = self.turn;
        [
            self.scale * (cos * x + sin * y),
            self.scale * (cos * y - sin * x),
        ]
    }
}

/// A side: its outline is cut or, with a flap, folded; what lies inside is drawn. A
/// polygon that crosses itself gets no flaps, which would lie over it.
fn side_lines(polygon: &Polygon, i: usize, flap: f64) -> Vec<(Layer, [Place; 2])> {
    let Some(towards) = polygon.inner[i].filter(|_| flap > 0.0 && !polygon.crosses) else {
        let stretches = polygon.stretches(i).unwrap_or_default().into_iter();
        let layer = |outline| if outline { Layer::Cut } else { Layer::Inner };
        return stretches.map(|s| (layer(s.outline), s.ends)).collect();
    };
    let count = polygon.places.len();
    let (a, b) = (polygon.places[i], polygon.places[(i + 1) % count]);
    let length = polygon.sides[i];
    let along = [(b[0] - a[0]) / length, (b[1] - a[1]) / length];
    let out = [along[1] * towards, -along[0] * towards];
    let lean = |corner: f64| LEAN.min(0.9 * (360.0 - corner) / 2.0).to_radians().tan();
    let [first, second] = [
        lean(polygon.corners[i]),
        lean(polygon.corners[(i + 1) % count]),
    ];
    let width = flap.min((1.0 - TIP) * length / (1.0 / first + 1.0 / second));
    let at = |from: Place, step: f64| {
        [
            from[0] + step * along[0] + width * out[0],
            from[1] + step * along[1] + width * out[1],
        ]
    };
    let (c, d) = (at(a, width / first), at(b, -width / second));
    vec![
        (Layer::Fold, [a, b]),
        (Layer::Cut, [a, c]),
        (Layer::Cut, [c, d]),
        (Layer::Cut, [d, b]),
    ]
}

/// The partner's letter and the angle, along the stretch in the middle of a side, inside
/// the piece.
fn mark(polygon: &Polygon, i: usize, partner: &Partner, level: &Level) -> Option<Mark> {
    let words = match partner.angle {
        Some(angle) => format!("{} {}", letter(partner.shape), degrees(angle)),
        None => letter(partner.shape),
    };
    let stretches = polygon.stretches(i)?;
    let [a, b] = stretches
        .get(stretches.len() / 2)?
        .ends
        .map(|end| level.place(end));
    let along = [b[0] - a[0], b[1] - a[1]];
    let length = along[0].hypot(along[1]);
    let size = LETTERS.min(0.9 * length / (WIDTH * words.chars().count() as f64));
    // Words read from left to right; on which side of their foot the piece lies then.
    let right = if along[0] < -1e-9 { -1.0 } else { 1.0 };
    let [x, y] = [right * along[0] / length, right * along[1] / length];
    let above = right * polygon.inner[i].unwrap_or(1.0);
    let off = if above > 0.0 { GAP } else { -GAP - size };
    let middle = [(a[0] + b[0]) / 2.0, (a[1] + b[1]) / 2.0];
    Some(Mark {
        place: [middle[0] - y * off, middle[1] + x * off],
        slope: y.atan2(x).to_degrees(),
        size,
        words,
    })
}

/// Moved so that nothing lies left of or below the corner.
fn settled(mut lines: Vec<(Layer, [Place; 2])>, mut marks: Vec<Mark>) -> Drawing {
    let ends = || lines.iter().flat_map(|(_, ends)| ends);
    let least = |k: usize| ends().map(|end| end[k]).fold(f64::INFINITY, f64::min);
    let most = |k: usize| ends().map(|end| end[k]).fold(f64::NEG_INFINITY, f64::max);
    let (corner, far) = ([least(0), least(1)], [most(0), most(1)]);
    let moved = |[x, y]: Place| [x - corner[0], y - corner[1]];
    lines
        .iter_mut()
        .for_each(|(_, ends)| *ends = ends.map(moved));
    marks
        .iter_mut()
        .for_each(|mark| mark.place = moved(mark.place));
    Drawing {
        lines,
        marks,
        size: moved(far),
    }
}
