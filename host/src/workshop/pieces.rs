//! The pieces that a figure is cut from: each polygon of its facets, with what is joined
//! to each of its sides. Pieces that are the same, turned over or not, are counted.

use std::collections::{BTreeMap, HashMap};

use crate::parts::facet::Body;
use crate::parts::joints::angle;
use crate::parts::names::edge_length;
use crate::parts::polygon::Polygon;
use crate::parts::shapes::letter;
use crate::report::Report;

/// What is joined to a side: a shape, and at which angle if there is one.
#[derive(Clone, Debug, PartialEq)]
pub struct Partner {
    /// The shape's number.
    pub shape: usize,
    /// The angle in degrees.
    pub angle: Option<f64>,
}

/// A piece, drawn as it is in its plane or, at rank 3, as a stick.
pub enum Drawn {
    /// A polygon of card or sheet.
    Polygon(Polygon),
    /// A stick of that length.
    Stick(f64),
}

/// Pieces of one kind.
pub struct Piece {
    /// The letter of its shape, with a number where pieces of that shape are joined to
    /// others in several ways.
    pub label: String,
    /// The shape.
    pub shape: usize,
    /// How many there are.
    pub count: usize,
    /// How it is drawn.
    pub drawn: Drawn,
    /// What is joined to each side of a polygon; none where not just one facet is.
    pub partners: Vec<Option<Partner>>,
}

/// Sides, corners and partners in digits, read from where they are least.
type Kind = (usize, Vec<[i64; 4]>);

/// The pieces of an entry, by shape.
pub fn pieces(report: &Report, e: usize) -> Vec<Piece> {
    let (parts, facets) = (&report.parts, &report.parts.entries[e].facets);
    let mut at: HashMap<[u32; 2], Vec<usize>> = HashMap::new();
    for &facet in facets {
        for &edge in &parts.shapes.facets[facet].edges {
            at.entry(edge).or_default().push(facet);
        }
    }
    let mut found: BTreeMap<Kind, Piece> = BTreeMap::new();
    for &number in facets {
        for piece in pieces_of(report, number, &at) {
            let kind = kind(&piece);
            found
                .entry(kind)
                .and_modify(|known| known.count += 1)
                .or_insert(piece);
        }
    }
    labelled(found.into_values().collect())
}

fn pieces_of(report: &Report, number: usize, at: &HashMap<[u32; 2], Vec<usize>>) -> Vec<Piece> {
    let shapes = &report.parts.shapes;
    let facet = &shapes.facets[number];
    let piece = |drawn, partners| Piece {
        label: String::new(),
        shape: shapes.shapes[number],
        count: 1,
        drawn,
        partners,
    };
    let partner = |polygon: &Polygon, i: usize| {
        let (a, b) = (
            polygon.cycle[i],
            polygon.cycle[(i + 1) % polygon.cycle.len()],
        );
        let edge = [a.min(b), a.max(b)];
        let others: Vec<usize> = at[&edge].iter().copied().filter(|&f| f != number).collect();
        let &[other] = &others[..] else { return None };
        let angle = angle(shapes, number, other, &edge);
        Some(Partner {
            shape: shapes.shapes[other],
            angle,
        })
    };
    match &facet.body {
        Body::Edge => vec![piece(Drawn::Stick(edge_length(facet, shapes)), Vec::new())],
        _ => (facet.polygons().iter())
            .map(|polygon| {
                let partners = (0..polygon.cycle.len()).map(|i| partner(polygon, i));
                piece(Drawn::Polygon(polygon.clone()), partners.collect())
            })
            .collect(),
    }
}

/// What makes two pieces the same.
fn kind(piece: &Piece) -> Kind {
    let digits = |x: f64| (x * 1e5).round() as i64;
    let polygon = match &piece.drawn {
        Drawn::Stick(length) => return (piece.shape, vec![[digits(*length), 0, 0, 0]]),
        Drawn::Polygon(polygon) => polygon,
    };
    let count = polygon.sides.len();
    let read = |start: usize, back: bool| -> Vec<[i64; 4]> {
        let corner = |k: usize| if back { start + 2 * count - k } else { start + k } % count;
        let side = |k: usize| {
            if back {
                (corner(k) + count - 1) % count
            } else {
                corner(k)
            }
        };
        let one = |k: usize| {
            let partner = piece.partners[side(k)].as_ref();
            let shape = partner.map_or(-1, |p| p.shape as i64);
            let angle = partner
                .and_then(|p| p.angle)
                .map_or(-1, |a| (a * 100.0).round() as i64);
            [
                digits(polygon.sides[side(k)]),
                digits(polygon.corners[corner(k)]),
                shape,
                angle,
            ]
        };
        (0..count).map(one).collect()
    };
    let all = (0..count).flat_map(|start| [read(start, false), read(start, true)]);
    (piece.shape, all.min().unwrap_or_default())
}

/// A, or A1 and A2 where pieces of a shape are joined in several ways.
fn labelled(mut pieces: Vec<Piece>) -> Vec<Piece> {
    let mut kinds: HashMap<usize, usize> = HashMap::new();
    for piece in &pieces {
        *kinds.entry(piece.shape).or_default() += 1;
    }
    let mut met: HashMap<usize, usize> = HashMap::new();
    for piece in &mut pieces {
        let number = met.entry(piece.shape).or_default();
        *number += 1;
        piece.label = match kinds[&piece.shape] {
            1 => letter(piece.shape),
            _ => format!("{}{number}", letter(piece.shape)),
        };
    }
    pieces
}
