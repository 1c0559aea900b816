//! What shapes are called: square, side 2.0000.

use super::facet::{Body, Facet};
use super::polygon::Polygon;
use super::shapes::Shapes;

/// The names of polygons by their number of sides, from three on.
const NAMES: [&str; 8] = [
    "triangle",
    "quadrilateral",
    "pentagon",
    "hexagon",
    "heptagon",
    "octagon",
    "nonagon",
    "decagon",
];

/// Numbers that a facet falls apart into, in words, from two on.
const NUMBERS: [&str; 4] = ["two", "three", "four", "five"];

/// A length with four decimals, or as many digits where it is small or large.
pub fn length(length: f64) -> String {
    match length {
        usual if (0.1..1e6).contains(&usual) => format!("{usual:.4}"),
        other => format!("{other:.4e}"),
    }
}

/// An angle in degrees.
pub fn degrees(angle: f64) -> String {
    format!("{angle:.2}°")
}

/// A facet's name and its lengths.
pub fn words(facet: &Facet, shapes: &Shapes) -> String {
    match &facet.body {
        Body::Point => "point".into(),
        Body::Edge => format!("edge, length {}", length(edge_length(facet, shapes))),
        Body::Polygons(_, polygons) => polygons_words(polygons, shapes),
        Body::Other => format!("{} edges that make up no plane polygon", facet.edges.len()),
    }
}

/// How long an edge is.
pub fn edge_length(facet: &Facet, shapes: &Shapes) -> f64 {
    let place = |i: usize| &shapes.points()[facet.points[i] as usize];
    crate::geometry::norm(&crate::geometry::minus(
        place(0),
        place(facet.points.len() - 1),
    ))
}

/// A polygon's name and lengths, these so many times as long.
pub fn polygon_words(polygon: &Polygon, shapes: &Shapes, scale: f64) -> String {
    let (name, measure) = named(polygon, shapes, scale);
    format!("{name}, {measure}")
}

/// Several polygons of one kind are counted: two triangles, side 2.0000.
fn polygons_words(polygons: &[Polygon], shapes: &Shapes) -> String {
    let named: Vec<(String, String)> = polygons.iter().map(|p| named(p, shapes, 1.0)).collect();
    let (name, measure) = &named[0];
    match polygons.len() {
        1 => format!("{name}, {measure}"),
        many if named.iter().all(|other| other == &named[0]) => {
            let number = NUMBERS
                .get(many - 2)
                .map_or(many.to_string(), |n| n.to_string());
            format!("{number} {}, {measure}", plural(name))
        }
        _ => {
            let each: Vec<String> = named.iter().map(|(n, m)| format!("{n}, {m}")).collect();
            each.join(" and ")
        }
    }
}

fn plural(name: &str) -> String {
    match name {
        "rhombus" => "rhombi".into(),
        star if star.starts_with("star ") => star.replacen("star", "stars", 1),
        other => format!("{other}s"),
    }
}

/// A polygon's name, and the lengths that it takes to cut it where it is regular, a
/// rectangle or a triangle; else those of all sides.
fn named(polygon: &Polygon, shapes: &Shapes, scale: f64) -> (String, String) {
    let count = polygon.cycle.len();
    let (sides, _) = in_order(polygon);
    let sides: Vec<f64> = sides.iter().map(|side| side * scale).collect();
    let side = format!("side {}", length(sides[0]));
    if shapes.is_regular(&polygon.cycle) {
        return (regular(count, polygon.turning), side);
    }
    let plain = name(count);
    if polygon.crosses {
        return (format!("crossed {plain}"), all_sides(&sides));
    }
    if let &[a, b, c, d] = &polygon.cycle[..] {
        let parallel = shapes.alike([a, b], [c, d]) && shapes.alike([b, c], [d, a]);
        if parallel && shapes.alike([a, c], [b, d]) {
            return ("rectangle".into(), all_sides(&sides[..2]));
        }
        if parallel && shapes.alike([a, b], [b, c]) {
            return ("rhombus".into(), side);
        }
    }
    (plain, all_sides(&sides))
}

fn all_sides(sides: &[f64]) -> String {
    let words: Vec<String> = sides.iter().map(|&side| length(side)).collect();
    format!("sides {}", words.join(" "))
}

fn regular(count: usize, turning: usize) -> String {
    match (count, turning) {
        (4, 1) => "square".into(),
        (_, 1) => name(count),
        (5, 2) => "pentagram".into(),
        _ => format!("star {{{count}/{turning}}}"),
    }
}

fn name(count: usize) -> String {
    let name = count.checked_sub(3).and_then(|i| NAMES.get(i));
    name.map_or(format!("{count}-gon"), |name| name.to_string())
}

/// Sides and corners from where they read least, either way around: the first side
/// leads from the first corner to the second.
pub fn in_order(polygon: &Polygon) -> (Vec<f64>, Vec<f64>) {
    let count = polygon.sides.len();
    let read = |start: usize, back: bool| {
        let corner = |k: usize| match back {
            false => (start + k) % count,
            true => (start + count - k) % count,
        };
        let side = |k: usize| match back {
            false => corner(k),
            true => (corner(k) + count - 1) % count,
        };
        let sides: Vec<f64> = (0..count).map(|k| polygon.sides[side(k)]).collect();
        let corners: Vec<f64> = (0..count).map(|k| polygon.corners[corner(k)]).collect();
        (sides, corners)
    };
    let all = (0..count).flat_map(|start| [read(start, false), read(start, true)]);
    let digits = |numbers: &[f64]| -> Vec<i64> {
        numbers.iter().map(|x| (x * 1e6).round() as i64).collect()
    };
    let least = all.min_by_key(|(sides, corners)| (digits(sides), digits(corners)));
    least.unwrap_or_default()
}
