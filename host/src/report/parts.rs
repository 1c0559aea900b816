//! The parts of figures on the page and in JSON: shapes under their letters, how many
//! of each a figure takes, and its joints.

use std::fmt::Write;

use faceting_register::Figure;

use super::json::Json;
use super::label::counted;
use super::Report;
use crate::parts::cycles::{cycles, words as way, Cycle};
use crate::parts::facet::{edges_of, Body, Facet};
use crate::parts::joints::{Joint, Loose};
use crate::parts::names::{degrees, edge_length, in_order, words};
use crate::parts::polygon::Polygon;
use crate::parts::shapes::letter;
use crate::parts::wholes::Whole;
use crate::parts::{EntryParts, Parts};

/// The rank at which elements are polygons.
const POLYGONS: usize = 3;

/// The closed ways of each polygon of a figure; at rank 3 it is one itself.
pub fn ways(figure: &Figure) -> Vec<Option<Vec<Cycle>>> {
    let polygons = figure.ranks.get(POLYGONS).map_or(0, Vec::len);
    let ways = |number| cycles(&edges_of(figure, POLYGONS, number));
    (0..polygons).map(ways).collect()
}

/// A possible facet by its points, and what it is.
pub fn facet_words(facet: &Facet, parts: &Parts) -> String {
    let joined = |&[a, b]: &[u32; 2]| format!("{a}-{b}");
    let name = words(facet, &parts.shapes);
    match &facet.body {
        Body::Point => format!("point {}", facet.points[0]),
        Body::Edge => format!("edge {}", joined(&facet.edges[0])),
        Body::Polygons(_, polygons) => {
            let ways: Vec<String> = polygons.iter().map(|p| way(&p.cycle)).collect();
            let edges = counted(facet.edges.len(), "edge", "edges");
            format!("{edges}: {}, {name}", ways.join(" "))
        }
        Body::Other => {
            let edges: Vec<String> = facet.edges.iter().map(joined).collect();
            format!("{name}: {}", edges.join(" "))
        }
    }
}

/// The shapes that figures use, then the parts of each figure.
pub fn put_parts(text: &mut String, report: &Report) {
    let parts = &report.parts;
    if parts.entries.is_empty() {
        return;
    }
    let shapes = counted(parts.used, "shape", "shapes") + &compound_count(parts);
    let place = match parts.true_to_size {
        true => "",
        false => " in the flat that the set is seen in",
    };
    let _ = writeln!(text, "\nParts, measured{place}: {shapes}");
    for shape in 0..parts.told {
        let facet = &parts.shapes.facets[parts.shapes.firsts[shape]];
        let corners = corner_words(facet);
        let _ = writeln!(text, "  {}{corners}", shape_words(parts, shape));
    }
    for (e, entry) in parts.entries.iter().enumerate() {
        let _ = writeln!(
            text,
            "  entry {e}: {}",
            entry_words(parts, entry, report.job.rank)
        );
    }
}

/// How many shapes compound facets have whole, beside those of the parts.
fn compound_count(parts: &Parts) -> String {
    match parts.told - parts.used {
        0 => String::new(),
        some => format!(
            " and {}",
            counted(some, "compound facet", "compound facets")
        ),
    }
}

/// A shape's letter, name and lengths.
pub fn shape_words(parts: &Parts, shape: usize) -> String {
    let facet = &parts.shapes.facets[parts.shapes.firsts[shape]];
    let name = words(facet, &parts.shapes);
    match shape < parts.used {
        true => format!("{} {name}", letter(shape)),
        false => format!("{} compound: {name}", letter(shape)),
    }
}

/// The angles at a polygon's corners, once where they are all the same.
fn corner_words(facet: &Facet) -> String {
    let [polygon] = facet.polygons() else {
        return String::new();
    };
    let (_, corners) = in_order(polygon);
    let mut told: Vec<String> = corners.iter().map(|&angle| degrees(angle)).collect();
    if told.iter().all(|angle| angle == &told[0]) {
        told.truncate(1);
    }
    format!(", corners {}", told.join(" "))
}

/// 6 × A square, side 2.0000; 12 joints, angle 90.00° A–A. Compound facets stand behind
/// the parts: 4 × A triangle, side 1.0000; of these 2 × B compound of 2 × A triangle, ..
pub fn entry_words(parts: &Parts, entry: &EntryParts, rank: u8) -> String {
    let part =
        |&(shape, count): &(usize, usize)| format!("{count} × {}", shape_words(parts, shape));
    let whole = |Whole {
                     count,
                     shape,
                     parts,
                 }: &Whole| {
        let made: Vec<String> = parts.iter().map(part).collect();
        let (letter, made) = (letter(*shape), made.join(" and "));
        format!("of these {count} × {letter} compound of {made}")
    };
    let joint = |joint: &Joint| joint_words(joint, rank);
    let loose = |loose: &Loose| loose_words(loose, rank);
    let counts = entry.counts.iter().map(part);
    let joints = entry.joints.iter().map(joint);
    let all: Vec<String> = counts
        .chain(entry.wholes.iter().map(whole))
        .chain(joints)
        .chain(entry.loose.iter().map(loose))
        .collect();
    all.join("; ")
}

/// The letters on both sides of a joint.
pub fn letters([one, other]: [usize; 2]) -> String {
    format!("{}–{}", letter(one), letter(other))
}

fn joint_words(joint: &Joint, rank: u8) -> String {
    let joints = match rank {
        3 => counted(joint.count, "corner", "corners"),
        _ => counted(joint.count, "joint", "joints"),
    };
    let letters = letters(joint.between);
    match joint.angle {
        Some(angle) => format!("{joints}, angle {} {letters}", degrees(angle)),
        None => format!("{joints} without one angle {letters}"),
    }
}

fn loose_words(loose: &Loose, rank: u8) -> String {
    let (ridges, one, many) = match rank {
        3 => (counted(loose.count, "point", "points"), "edge", "edges"),
        _ => (counted(loose.count, "edge", "edges"), "facet", "facets"),
    };
    format!("{ridges} in {}, no joint", counted(loose.facets, one, many))
}

/// The shapes that figures use, and those that only compound facets have.
pub fn shapes_json(parts: &Parts) -> Json {
    let shape = |shape: usize| {
        let facet = &parts.shapes.facets[parts.shapes.firsts[shape]];
        let length = match facet.body {
            Body::Edge => Json::Float(edge_length(facet, &parts.shapes)),
            _ => Json::Null,
        };
        Json::Object(vec![
            ("letter", Json::Text(letter(shape))),
            ("words", Json::Text(words(facet, &parts.shapes))),
            ("compound", Json::Truth(shape >= parts.used)),
            ("length", length),
            ("polygons", list(facet.polygons(), polygon_json)),
        ])
    };
    Json::List((0..parts.told).map(shape).collect())
}

fn polygon_json(polygon: &Polygon) -> Json {
    let (sides, corners) = in_order(polygon);
    Json::Object(vec![
        ("sides", list(&sides, |&side| Json::Float(side))),
        ("corners", list(&corners, |&angle| Json::Float(angle))),
        ("turning", number(polygon.turning)),
    ])
}

/// What is measured of an entry, and its polygons as closed ways.
pub fn entry_json(entry: &EntryParts, figure: &Figure) -> Json {
    let part = |&(shape, count): &(usize, usize)| {
        Json::Object(vec![
            ("shape", Json::Text(letter(shape))),
            ("count", number(count)),
        ])
    };
    let whole = |whole: &Whole| {
        Json::Object(vec![
            ("shape", Json::Text(letter(whole.shape))),
            ("count", number(whole.count)),
            ("parts", list(&whole.parts, part)),
        ])
    };
    let joint = |joint: &Joint| {
        let between = list(&joint.between, |&shape| Json::Text(letter(shape)));
        let angle = joint.angle.map_or(Json::Null, Json::Float);
        Json::Object(vec![
            ("count", number(joint.count)),
            ("between", between),
            ("angle", angle),
        ])
    };
    let loose = |loose: &Loose| {
        Json::Object(vec![
            ("count", number(loose.count)),
            ("facets", number(loose.facets)),
        ])
    };
    Json::Object(vec![
        ("shapes", list(&entry.counts, part)),
        ("compounds", list(&entry.wholes, whole)),
        ("joints", list(&entry.joints, joint)),
        ("loose", list(&entry.loose, loose)),
        ("ways", list(&ways(figure), ways_json)),
    ])
}

/// Null where the edges of a polygon do not close.
fn ways_json(ways: &Option<Vec<Cycle>>) -> Json {
    let cycle = |cycle: &Cycle| list(cycle, |&point| number(point as usize));
    ways.as_ref().map_or(Json::Null, |ways| list(ways, cycle))
}

fn number(number: usize) -> Json {
    Json::Number(number as i64)
}

fn list<T>(items: &[T], one: impl Fn(&T) -> Json) -> Json {
    Json::List(items.iter().map(one).collect())
}
