//! Whether rows carry the figures of an answer to themselves. Where they are closed
//! under composition that is promised, and proved; the host looks again, rank by
//! rank, from the answer's bytes alone.

use std::collections::{HashMap, HashSet};

use faceting_register::{Answer, Figure, Job};

/// Where the ranks that are looked at begin: with the edges. The last has the body
/// alone, and the one before it the facets.
const EDGES: usize = 2;

/// The rank from which on the promise is made: below it facets are points.
const LEAST_RANK: u8 = 3;

/// Whether the images of a figure's edges are its edges, and so on for each rank up to
/// the facets. An element's image has the images of its subs.
pub fn carries(row: &[u8], figure: &Figure) -> bool {
    let mut to: Vec<u32> = row.iter().map(|&v| v.into()).collect();
    let last = figure.ranks.len().saturating_sub(1).max(EDGES);
    for elements in figure.ranks.get(EDGES..last).unwrap_or_default() {
        let Some(images) = images(elements, &to) else {
            return false;
        };
        to = images;
    }
    true
}

/// The number of each element's image, if the images are the elements again.
fn images(elements: &[Vec<u32>], to: &[u32]) -> Option<Vec<u32>> {
    let numbered = elements.iter().zip(0..);
    let numbers: HashMap<&[u32], u32> = numbered.map(|(e, i)| (&e[..], i)).collect();
    let image = |element: &Vec<u32>| {
        let subs = element.iter().map(|&sub| to.get(sub as usize).copied());
        let mut subs = subs.collect::<Option<Vec<u32>>>()?;
        subs.sort_unstable();
        numbers.get(&subs[..]).copied()
    };
    let images = elements.iter().map(image).collect::<Option<Vec<u32>>>()?;
    let different: HashSet<&u32> = images.iter().collect();
    (different.len() == elements.len()).then_some(images)
}

/// What a job's rows do to the figures of its answer.
#[derive(Clone, Debug, PartialEq, Eq)]
pub struct Carried {
    /// Whether the rows are closed under composition.
    pub closed: bool,
    /// For each entry the first row that carries its figure elsewhere.
    pub elsewhere: Vec<Option<usize>>,
}

impl Carried {
    /// A look at every figure, for ranks of which there is a promise.
    pub fn of(job: &Job, answer: &Answer) -> Option<Carried> {
        let mover = |figure| job.rows.iter().position(|row| !carries(row, figure));
        let figures = answer.entries.iter().map(|entry| &entry.figure);
        (job.rank >= LEAST_RANK).then(|| Carried {
            closed: job.rows_closed(),
            elsewhere: figures.map(mover).collect(),
        })
    }

    /// How many figures some row carries elsewhere.
    pub fn moved(&self) -> usize {
        self.elsewhere.iter().flatten().count()
    }

    /// What breaks the promise, in words.
    pub fn broken(&self) -> Option<String> {
        let moved = |(e, row): (usize, &Option<usize>)| row.map(|row| (e, row));
        let (e, row) = self.elsewhere.iter().enumerate().find_map(moved)?;
        self.closed.then(|| {
            format!("row {row} carries the figure of entry {e} elsewhere, though the rows are closed under composition")
        })
    }
}
