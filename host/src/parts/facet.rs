//! A facet of a figure as somebody cuts it: its points and edges, and at rank 4 its
//! polygons.

use faceting_register::Figure;

use super::cycles::cycles;
use super::frame::Frame;
use super::polygon::Polygon;
use crate::geometry::{minus, norm};
use crate::report::look;

/// Edges by their ends, ascending; what a facet is told by.
pub type Edges = Vec<[u32; 2]>;

/// What facets are at a rank.
#[derive(Clone, Debug)]
pub enum Body {
    /// A point, at rank 2.
    Point,
    /// An edge, at rank 3.
    Edge,
    /// Polygons in one plane, at rank 4.
    Polygons(Frame, Vec<Polygon>),
    /// Edges that do not close, or lie in no plane: nothing is measured.
    Other,
}

/// A facet.
#[derive(Clone, Debug)]
pub struct Facet {
    /// Its points, ascending.
    pub points: Vec<u32>,
    /// Its edges.
    pub edges: Edges,
    /// What it is.
    pub body: Body,
}

impl Facet {
    /// The facet of these edges in a set of flattened points.
    pub fn of(mut edges: Edges, points: &[Vec<f64>], tolerance: f64) -> Facet {
        edges.iter_mut().for_each(|ends| ends.sort_unstable());
        edges.sort_unstable();
        let mut ends: Vec<u32> = edges.iter().flatten().copied().collect();
        ends.sort_unstable();
        ends.dedup();
        let body = match edges[..] {
            [] => Body::Other,
            [_] => Body::Edge,
            _ => polygons(&edges, &ends, points, tolerance).unwrap_or(Body::Other),
        };
        Facet {
            points: ends,
            edges,
            body,
        }
    }

    /// A facet of rank 2.
    pub fn point(point: u32) -> Facet {
        Facet {
            points: vec![point],
            edges: Vec::new(),
            body: Body::Point,
        }
    }

    /// Its polygons, where it is made of such.
    pub fn polygons(&self) -> &[Polygon] {
        match &self.body {
            Body::Polygons(_, polygons) => polygons,
            _ => &[],
        }
    }

    /// Where the facet lies beside a ridge: at an edge of a polygon the direction in
    /// its plane across that edge, at the end of an edge the direction along it.
    pub fn inward(&self, ridge: &[u32], points: &[Vec<f64>]) -> Option<Vec<f64>> {
        match (&self.body, ridge) {
            (Body::Polygons(frame, polygons), &[a, b]) => {
                let mut sides = polygons.iter().filter_map(|polygon| {
                    let side = polygon.side_between([a, b])?;
                    Some(polygon.inward(side))
                });
                Some(frame.direction(sides.next()??))
            }
            (Body::Edge, &[end]) => {
                let other = self.points.iter().find(|&&point| point != end)?;
                let away = minus(&points[*other as usize], &points[end as usize]);
                let length = norm(&away);
                (length > 0.0).then(|| away.iter().map(|x| x / length).collect())
            }
            _ => None,
        }
    }
}

fn polygons(edges: &[[u32; 2]], ends: &[u32], points: &[Vec<f64>], tolerance: f64) -> Option<Body> {
    let places: Vec<&Vec<f64>> = ends.iter().map(|&point| &points[point as usize]).collect();
    let frame = Frame::through(&places, tolerance)?;
    let ways = cycles(edges)?;
    let polygon = |way: &Vec<u32>| Polygon::of(way, &frame, points);
    let found: Option<Vec<Polygon>> = ways.iter().map(polygon).collect();
    Some(Body::Polygons(frame, found?))
}

/// The edges below an element, by their ends, ascending; none below a point.
pub fn edges_of(figure: &Figure, rank: usize, number: usize) -> Edges {
    if rank < 2 {
        return Vec::new();
    }
    let ends = |edge: usize| figure.ranks[2][edge][..].try_into().ok();
    let edges = look::edges_of(figure, rank, number);
    edges.into_iter().filter_map(ends).collect()
}
