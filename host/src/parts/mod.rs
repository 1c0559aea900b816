//! What a workshop needs of a figure: its facets as closed ways, the shapes that they
//! have, their lengths and angles, and how they are joined. Which facets a figure has
//! is the answer's; what is measured comes from the job's points, flattened as the
//! register sees them, and is the host's own look.
//!
//! A compound facet that the register has split stands among a figure's facets as its
//! parts, and is told whole beside them.

pub mod cycles;
pub mod facet;
pub mod frame;
pub mod joints;
pub mod names;
pub mod polygon;
pub mod shapes;
pub mod wholes;

use std::collections::BTreeMap;

use faceting_register::{Answer, Figure, Job};

use crate::geometry::{flattened, minus, norm};
use crate::report::look::facet_rank;
use facet::{edges_of, Edges, Facet};
use joints::{joints, Joint, Loose};
use shapes::Shapes;
use wholes::{wholes, Counts, Whole};

/// The parts of every figure of an answer.
pub struct Parts {
    /// Facets and their shapes. Those that figures use come first, in their order.
    pub shapes: Shapes,
    /// How many shapes the figures use: those of the parts to be cut.
    pub used: usize,
    /// How many shapes are told: behind those that are used, the shapes that only
    /// compound facets have, whole.
    pub told: usize,
    /// For each entry.
    pub entries: Vec<EntryParts>,
    /// For each orbit the numbers of its possible facets.
    pub possible: Vec<Vec<usize>>,
    /// Whether the flattened points are as far apart as the points as given.
    pub true_to_size: bool,
}

/// The parts of one figure.
pub struct EntryParts {
    /// The numbers of its facets, in the figure's order.
    pub facets: Vec<usize>,
    /// How many facets of each shape.
    pub counts: Counts,
    /// The compound facets that some of them are the parts of, by kind.
    pub wholes: Vec<Whole>,
    /// Where two facets meet, by kind.
    pub joints: Vec<Joint>,
    /// Ridges that lie in another number of facets than two.
    pub loose: Vec<Loose>,
}

impl Parts {
    /// What can be told of an answer to a job.
    pub fn of(job: &Job, answer: &Answer) -> Parts {
        let mut shapes = Shapes::among(flattened(job), job.tolerance);
        let figures = answer.entries.iter().map(|entry| &entry.figure);
        let mut entries: Vec<EntryParts> = figures.map(|f| entry(f, &mut shapes)).collect();
        let used = shapes.firsts.len();
        for (parts, entry) in entries.iter_mut().zip(&answer.entries) {
            parts.wholes = wholes(job, answer, entry, &mut shapes);
        }
        let told = shapes.firsts.len();
        let mut number = |figure: &Figure| possible(figure, &mut shapes);
        let orbits = answer.facets.iter();
        let possible = orbits.map(|orbit| orbit.iter().map(&mut number).collect());
        Parts {
            possible: possible.collect(),
            true_to_size: true_to_size(&job.points, shapes.points(), job.tolerance),
            used,
            told,
            entries,
            shapes,
        }
    }
}

fn true_to_size(given: &[Vec<f64>], seen: &[Vec<f64>], tolerance: f64) -> bool {
    let apart = |points: &[Vec<f64>], v: usize, w: usize| norm(&minus(&points[v], &points[w]));
    let kept = |v, w| (apart(given, v, w) - apart(seen, v, w)).abs() <= tolerance;
    (0..given.len()).all(|v| (0..v).all(|w| kept(v, w)))
}

fn entry(figure: &Figure, shapes: &mut Shapes) -> EntryParts {
    let rank = facet_rank(figure);
    let all = rank.map_or(0, |rank| figure.ranks[rank].len());
    let facets: Vec<usize> = (0..all)
        .map(|number| match rank {
            None | Some(1) => shapes.add(Facet::point(number as u32)),
            Some(rank) => shapes.number(edges_of(figure, rank, number)),
        })
        .collect();
    let mut counts: BTreeMap<usize, usize> = BTreeMap::new();
    for &number in &facets {
        *counts.entry(shapes.shapes[number]).or_default() += 1;
    }
    let (joints, loose) = rank.map_or_else(Default::default, |rank| {
        joints(figure, rank, &facets, shapes)
    });
    EntryParts {
        counts: counts.into_iter().collect(),
        wholes: Vec::new(),
        facets,
        joints,
        loose,
    }
}

/// A possible facet; its edges end at points of the job.
fn possible(figure: &Figure, shapes: &mut Shapes) -> usize {
    match figure.ranks.get(2).map_or(&[][..], Vec::as_slice) {
        [end] if end.len() == 1 => shapes.add(Facet::point(end[0])),
        _ => shapes.number(possible_edges(figure)),
    }
}

fn possible_edges(figure: &Figure) -> Edges {
    let elements = figure.ranks.get(2).map_or(&[][..], Vec::as_slice);
    let ends = |edge: &Vec<u32>| edge[..].try_into().ok();
    elements.iter().filter_map(ends).collect()
}
