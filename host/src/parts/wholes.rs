//! Compound facets of a figure, whole: a facet of the choice that the register has split,
//! each of its images under the rows, and the facets of the figure that are its parts.
//! Which facet was split into which is the answer's; shapes are measured.

use std::collections::BTreeMap;

use faceting_register::answer::Pair;
use faceting_register::{Answer, Entry, Job};

use super::facet::Edges;
use super::possible_edges;
use super::shapes::Shapes;

/// How many facets of each shape, ascending by shape.
pub type Counts = Vec<(usize, usize)>;

/// Compound facets of one kind.
#[derive(Clone, Debug, PartialEq, Eq)]
pub struct Whole {
    /// How many there are.
    pub count: usize,
    /// The shape that they have whole.
    pub shape: usize,
    /// What each is made of.
    pub parts: Counts,
}

/// The compound facets of an entry, by kind.
pub fn wholes(job: &Job, answer: &Answer, entry: &Entry, shapes: &mut Shapes) -> Vec<Whole> {
    let mut images: BTreeMap<Edges, Vec<Edges>> = BTreeMap::new();
    for (whole, parts) in entry.compound_facets() {
        let Some(facets) = edges_of_all(answer, whole, &parts) else {
            continue;
        };
        for row in &job.rows {
            let mut moved = facets.iter().map(|edges| image(edges, row));
            let whole = moved.next().unwrap_or_default();
            images.entry(whole).or_insert_with(|| moved.collect());
        }
    }
    let mut kinds: BTreeMap<(usize, Counts), usize> = BTreeMap::new();
    for (whole, parts) in images {
        let mut shape = |edges: Edges| {
            let number = shapes.number(edges);
            shapes.shapes[number]
        };
        let mut counts: BTreeMap<usize, usize> = BTreeMap::new();
        for part in parts {
            *counts.entry(shape(part)).or_default() += 1;
        }
        let kind = (shape(whole), counts.into_iter().collect());
        *kinds.entry(kind).or_default() += 1;
    }
    let whole = |((shape, parts), count)| Whole {
        count,
        shape,
        parts,
    };
    kinds.into_iter().map(whole).collect()
}

/// The edges of a facet and then of each of its parts, where they are those of the parts
/// together. They always should be; if not, nothing is said of the facet.
fn edges_of_all(answer: &Answer, whole: Pair, parts: &[Pair]) -> Option<Vec<Edges>> {
    let edges = |&(orbit, facet): &Pair| {
        let figure = answer.facets.get(orbit as usize)?.get(facet as usize)?;
        Some(ascending(possible_edges(figure)))
    };
    let all = std::iter::once(&whole).chain(parts).map(edges);
    let all = all.collect::<Option<Vec<Edges>>>()?;
    let mut together = ascending(all[1..].concat());
    together.dedup();
    (all[0] == together).then_some(all)
}

fn image(edges: &Edges, row: &[u8]) -> Edges {
    let to = |end: u32| row[end as usize].into();
    ascending(edges.iter().map(|ends| ends.map(to)).collect())
}

/// Each edge from its lower end, and the edges in order.
fn ascending(mut edges: Edges) -> Edges {
    edges.iter_mut().for_each(|ends| ends.sort_unstable());
    edges.sort_unstable();
    edges
}
