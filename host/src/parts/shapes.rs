//! Facets of the same shape under one letter: congruent ones, mirror images too, since
//! a plane part can be turned over.

use std::collections::HashMap;

use super::facet::{Edges, Facet};
use crate::symmetry::Distances;

/// What congruent facets share: how often each distance occurs, along edges and else.
type Signature = Vec<(usize, bool)>;

/// Facets as they are met, each once, and the shapes that they have.
pub struct Shapes {
    distances: Distances,
    points: Vec<Vec<f64>>,
    tolerance: f64,
    numbers: HashMap<Edges, usize>,
    kinds: HashMap<Signature, Vec<usize>>,
    /// Every facet once.
    pub facets: Vec<Facet>,
    /// The shape of each.
    pub shapes: Vec<usize>,
    /// The first facet of each shape.
    pub firsts: Vec<usize>,
}

impl Shapes {
    /// None yet, in a set of flattened points that are told apart by this tolerance.
    pub fn among(points: Vec<Vec<f64>>, tolerance: f64) -> Shapes {
        Shapes {
            distances: Distances::between(&points, tolerance),
            points,
            tolerance,
            numbers: HashMap::new(),
            kinds: HashMap::new(),
            facets: Vec::new(),
            shapes: Vec::new(),
            firsts: Vec::new(),
        }
    }

    /// The number of the facet with these edges.
    pub fn number(&mut self, edges: Edges) -> usize {
        if let Some(&number) = self.numbers.get(&edges) {
            return number;
        }
        let number = self.add(Facet::of(edges.clone(), &self.points, self.tolerance));
        self.numbers.insert(edges, number);
        number
    }

    /// The number of a facet that is not there yet.
    pub fn add(&mut self, facet: Facet) -> usize {
        let number = self.facets.len();
        let kin = self
            .kinds
            .entry(signature(&facet, &self.distances))
            .or_default();
        let congruent = |shape: &&usize| {
            let first = &self.facets[self.firsts[**shape]];
            carry(first, &facet, &self.distances, &mut Vec::new())
        };
        let shape = kin.iter().find(congruent).copied();
        let shape = shape.unwrap_or_else(|| {
            kin.push(self.firsts.len());
            self.firsts.push(number);
            self.firsts.len() - 1
        });
        self.facets.push(facet);
        self.shapes.push(shape);
        number
    }

    /// The points that the facets are among.
    pub fn points(&self) -> &[Vec<f64>] {
        &self.points
    }

    /// Whether a turn carries a closed way along itself by one step: whether it is the
    /// outline of a regular polygon or star.
    pub fn is_regular(&self, cycle: &[u32]) -> bool {
        let count = cycle.len();
        let class = |i: usize, step: usize| {
            let (v, w) = (cycle[i], cycle[(i + step) % count]);
            self.distances.class(v as usize, w as usize)
        };
        (1..count).all(|step| (1..count).all(|i| class(i, step) == class(0, step)))
    }

    /// Whether two pairs of points are equally far apart.
    pub fn alike(&self, [a, b]: [u32; 2], [c, d]: [u32; 2]) -> bool {
        let class = |v: u32, w: u32| self.distances.class(v as usize, w as usize);
        class(a, b) == class(c, d)
    }
}

fn joined(facet: &Facet, a: u32, b: u32) -> bool {
    facet.edges.binary_search(&[a.min(b), a.max(b)]).is_ok()
}

fn signature(facet: &Facet, distances: &Distances) -> Signature {
    let points = &facet.points;
    let pair = |i: usize, j: usize| {
        let (v, w) = (points[i], points[j]);
        (distances.class(v as usize, w as usize), joined(facet, v, w))
    };
    let mut found: Signature = (0..points.len())
        .flat_map(|j| (0..j).map(move |i| (i, j)))
        .map(|(i, j)| pair(i, j))
        .collect();
    found.sort_unstable();
    found
}

/// Whether the points of one facet can be carried to those of another, distances and
/// edges kept, when the first of them go to these.
fn carry(one: &Facet, other: &Facet, distances: &Distances, images: &mut Vec<u32>) -> bool {
    let next = images.len();
    if one.points.len() != other.points.len() {
        return false;
    }
    let Some(&point) = one.points.get(next) else {
        return true;
    };
    for &image in &other.points {
        let fits = images.iter().zip(&one.points).all(|(&to, &from)| {
            let class = |v: u32, w: u32| distances.class(v as usize, w as usize);
            to != image
                && class(from, point) == class(to, image)
                && joined(one, from, point) == joined(other, to, image)
        });
        if fits {
            images.push(image);
            if carry(one, other, distances, images) {
                return true;
            }
            images.pop();
        }
    }
    false
}

/// A to Z, then AA, AB and so on.
pub fn letter(shape: usize) -> String {
    const LETTERS: usize = 26;
    let last = char::from(b'A' + (shape % LETTERS) as u8);
    match shape / LETTERS {
        0 => last.to_string(),
        more => format!("{}{last}", letter(more - 1)),
    }
}

#[cfg(test)]
mod tests {
    use super::*;

    #[test]
    fn letters_go_on_behind_z() {
        let letters = [0, 25, 26, 51, 52, 701, 702].map(letter);
        assert_eq!(letters, ["A", "Z", "AA", "AZ", "BA", "ZZ", "AAA"]);
    }

    #[test]
    fn a_mirror_image_has_the_same_shape_and_another_triangle_has_not() {
        let points = [[0., 0.], [2., 0.], [1., 1.], [0., 1.], [2., 1.], [1., 0.]];
        let mut shapes = Shapes::among(points.map(Vec::from).to_vec(), 1e-7);
        let mut shape = |a, b, c| {
            let number = shapes.number(vec![[a, b], [a, c], [b, c]]);
            shapes.shapes[number]
        };
        assert_eq!(shape(0, 1, 3), 0);
        assert_eq!(shape(0, 1, 4), 0);
        assert_eq!(shape(0, 1, 2), 1);
        assert_eq!(shape(0, 2, 5), 2);
        assert_eq!(shape(0, 1, 3), 0);
    }
}
