//! A figure as an SVG picture: faces like coloured glass by their shape, edges by
//! their length, what is near darker than what is far.

use std::fmt::Write;

use super::colour::{self, STYLE};
use super::html::SMALL;
use super::mark;
use super::markup::{escaped, tag};
use super::view::{view, Seen};
use crate::parts::cycles::{cycles, Cycle};
use crate::parts::facet::edges_of;
use crate::parts::Parts;
use crate::report::look::facet_rank;
use crate::report::parts::entry_words;
use crate::report::Report;

/// The size of a picture, and what is left free around the figure.
pub const SIZE: f64 = 320.0;
const MARGIN: f64 = 24.0;

/// What pictures of one set share.
pub struct Painter<'a> {
    report: &'a Report,
    places: Vec<Seen>,
}

impl<'a> Painter<'a> {
    /// For the figures of a report.
    pub fn of(report: &'a Report) -> Painter<'a> {
        let places = view(&report.job);
        Painter { report, places }
    }

    /// Where a point is, in a picture of that size.
    fn place(&self, point: u32, size: f64) -> (String, String) {
        let [x, y, _] = self.places[point as usize];
        let half = size / 2.0;
        let scale = half - MARGIN * size / SIZE;
        (short(half + scale * x), short(half - scale * y))
    }

    /// How near these points are on the whole: 0 far, 4 near.
    fn depth(&self, points: &[u32]) -> f64 {
        let sum: f64 = points.iter().map(|&p| self.places[p as usize][2]).sum();
        sum / points.len().max(1) as f64
    }

    /// Faces and edges of an entry, farther ones first.
    pub fn strokes(&self, e: usize, size: f64) -> String {
        let mut text = String::new();
        for (depth, colour, cycles) in self.faces(e) {
            let path: String = cycles.iter().map(|cycle| self.path(cycle, size)).collect();
            let class = format!("{} {}", colour::face(colour), colour::near(depth));
            let _ = write!(text, "<path class=\"{class}\" d=\"{path}\"/>");
        }
        for (class, path) in self.lines(e, size) {
            let _ = write!(text, "<path class=\"{class}\" d=\"{path}\"/>");
        }
        text
    }

    /// The edges, those of a kind that follow each other as one path.
    fn lines(&self, e: usize, size: f64) -> Vec<(String, String)> {
        let mut lines: Vec<(String, String)> = Vec::new();
        for (depth, colour, [a, b]) in self.edges(e) {
            let ((x, y), (u, v)) = (self.place(a, size), self.place(b, size));
            let line = format!("M{x} {y}L{u} {v}");
            let class = format!("{} {}", colour::edge(colour), colour::near(depth));
            match lines.last_mut().filter(|(known, _)| known == &class) {
                Some((_, path)) => path.push_str(&line),
                None => lines.push((class, line)),
            }
        }
        lines
    }

    fn path(&self, cycle: &[u32], size: f64) -> String {
        let place = |(i, &point): (usize, &u32)| {
            let (x, y) = self.place(point, size);
            format!("{}{x} {y}", if i == 0 { "M" } else { "L" })
        };
        let steps: String = cycle.iter().enumerate().map(place).collect();
        steps + "Z"
    }

    /// Depth, shape and closed ways of each polygon; at rank 3 the one figure.
    pub fn faces(&self, e: usize) -> Vec<(f64, usize, Vec<Cycle>)> {
        let (parts, figure) = (&self.report.parts, &self.report.answer.entries[e].figure);
        if self.report.job.rank < 4 {
            let ways = cycles(&edges_of(figure, 3, 0)).filter(|_| self.report.job.rank == 3);
            return ways.map(|ways| (0.0, 0, ways)).into_iter().collect();
        }
        let face = |&number: &usize| {
            let facet = &parts.shapes.facets[number];
            let ways = cycles(&facet.edges)?;
            Some((self.depth(&facet.points), parts.shapes.shapes[number], ways))
        };
        let mut faces: Vec<_> = parts.entries[e].facets.iter().filter_map(face).collect();
        faces.sort_by(|one, other| one.0.total_cmp(&other.0));
        faces
    }

    /// Depth, kind of length and ends of each edge.
    pub fn edges(&self, e: usize) -> Vec<(f64, usize, [u32; 2])> {
        let figure = &self.report.answer.entries[e].figure;
        let top = facet_rank(figure).map_or(0, |rank| rank + 1);
        let kinds = kinds(&self.report.parts);
        let edge = |ends: [u32; 2]| {
            let length = kinds
                .iter()
                .position(|&[a, b]| self.report.parts.shapes.alike([a, b], ends));
            (self.depth(&ends), length.unwrap_or(kinds.len()), ends)
        };
        let all = edges_of(figure, top, 0);
        let mut edges: Vec<_> = all.into_iter().map(edge).collect();
        edges.sort_by(|one, other| one.0.total_cmp(&other.0));
        edges
    }

    /// The numbers of points, those that are seen in one place together.
    fn numbers(&self, size: f64) -> String {
        let mut text = String::new();
        let mut seen: Vec<((String, String), Vec<String>)> = Vec::new();
        for point in 0..self.places.len() as u32 {
            let place = self.place(point, size);
            match seen.iter_mut().find(|(known, _)| known == &place) {
                Some((_, points)) => points.push(point.to_string()),
                None => seen.push((place, vec![point.to_string()])),
            }
        }
        for ((x, y), points) in seen {
            let open = format!("text class=\"n\" x=\"{x}\" y=\"{y}\" dx=\"4\" dy=\"-4\"");
            text += &tag(&open, points.join(" "));
        }
        text
    }

    /// Where all points are.
    pub fn places(&self) -> &[Seen] {
        &self.places
    }

    /// A small picture inside a page.
    pub fn small(&self, e: usize) -> String {
        let size = short(SMALL);
        let size = format!("viewBox=\"0 0 {size} {size}\" width=\"{size}\" height=\"{size}\"");
        tag(
            &format!("svg {size} aria-hidden=\"true\""),
            self.strokes(e, SMALL),
        )
    }

    /// A picture by itself.
    pub fn file(&self, e: usize) -> String {
        let parts = &self.report.parts;
        let words = entry_words(parts, &parts.entries[e], self.report.job.rank);
        let name = escaped(&self.report.subject.name);
        let inside = [
            head(SIZE, SIZE, &mark(self.report, Some(e))),
            tag("title", format!("Entry {e} of {name}")),
            tag("desc", escaped(&words)),
            tag("style", STYLE),
            PAPER.into(),
            self.strokes(e, SIZE),
            self.numbers(SIZE),
        ];
        inside.concat() + "\n</svg>\n"
    }
}

/// The first edge of each length that figures of a set have, in their order.
fn kinds(parts: &Parts) -> Vec<[u32; 2]> {
    let mut kinds: Vec<[u32; 2]> = Vec::new();
    for entry in &parts.entries {
        for edge in entry
            .facets
            .iter()
            .flat_map(|&f| &parts.shapes.facets[f].edges)
        {
            if !kinds.iter().any(|&kind| parts.shapes.alike(kind, *edge)) {
                kinds.push(*edge);
            }
        }
    }
    kinds
}

/// What a picture is drawn on.
pub const PAPER: &str = "<rect class=\"paper\" width=\"100%\" height=\"100%\"/>\n";

/// The first lines of an SVG file.
pub fn head(width: f64, height: f64, mark: &str) -> String {
    const SVG: &str = "<svg xmlns=\"http://www.w3.org/2000/svg\"";
    let (width, height) = (short(width), short(height));
    let size = format!("viewBox=\"0 0 {width} {height}\" width=\"{width}\" height=\"{height}\"");
    format!("{SVG} {size}>\n<!-- {mark} -->\n")
}

/// A number with one decimal, or none where that is zero.
pub fn short(number: f64) -> String {
    let text = format!("{number:.1}");
    let text = text.strip_suffix(".0").unwrap_or(&text);
    if text == "-0" {
        "0".into()
    } else {
        text.into()
    }
}
