//! The host's own look at the figures of an answer, from the answer's bytes alone:
//! whether each closes in itself, in how many pieces it is, and whether it is an
//! earlier entry again. None of it is proved; README tells what is.

use std::collections::HashMap;

use faceting_register::{Answer, Figure};

/// What was seen of an entry's figure.
#[derive(Clone, Debug, PartialEq, Eq)]
pub struct Look {
    /// The first ridge that does not lie in exactly two facets, in words; nothing
    /// where the figure closes in itself.
    pub open: Option<String>,
    /// Groups of facets that hang together by ridges.
    pub pieces: usize,
    /// The first entry with the same figure, if it is an earlier one.
    pub equals: Option<usize>,
}

impl Look {
    /// Whether every ridge lies in exactly two facets.
    pub fn closes(&self) -> bool {
        self.open.is_none()
    }
}

/// A look at each entry, in their order.
pub fn looks(answer: &Answer) -> Vec<Look> {
    let mut first: HashMap<&Figure, usize> = HashMap::new();
    let figures = answer.entries.iter().map(|entry| &entry.figure);
    let look = |(e, figure)| {
        let earliest = *first.entry(figure).or_insert(e);
        Look {
            open: open_ridge(figure),
            pieces: pieces(figure),
            equals: (earliest < e).then_some(earliest),
        }
    };
    figures.enumerate().map(look).collect()
}

/// The number of a figure's rank of facets, which is the second last; its ridges
/// stand one rank below.
pub fn facet_rank(figure: &Figure) -> Option<usize> {
    figure.ranks.len().checked_sub(2).filter(|&rank| rank > 0)
}

fn facets(figure: &Figure) -> &[Vec<u32>] {
    facet_rank(figure).map_or(&[], |rank| &figure.ranks[rank])
}

/// The first ridge of the figure's facets that lies in another number of them than
/// two, by a tally of each ridge.
fn open_ridge(figure: &Figure) -> Option<String> {
    let rank = facet_rank(figure)?;
    let mut tally = vec![0; figure.ranks[rank - 1].len()];
    for &ridge in facets(figure).iter().flatten() {
        tally[ridge as usize] += 1;
    }
    let open = tally.iter().position(|&times| times != 0 && times != 2)?;
    let facets = match (rank, tally[open]) {
        (2, 1) => "edge",
        (2, _) => "edges",
        (_, 1) => "facet",
        _ => "facets",
    };
    let ridge = element(figure, rank - 1, open);
    Some(format!("{ridge} lies in {} {facets}", tally[open]))
}

/// An element by its points: a point by its number, an edge by its ends, anything
/// above by its edges.
fn element(figure: &Figure, rank: usize, number: usize) -> String {
    let edge = |edge: usize| match figure.ranks[2][edge][..] {
        [a, b] => format!("{a}-{b}"),
        _ => format!("number {edge}"),
    };
    match rank {
        0 | 1 => format!("point {number}"),
        2 => format!("edge {}", edge(number)),
        _ => {
            let names: Vec<String> = edges_of(figure, rank, number)
                .into_iter()
                .map(edge)
                .collect();
            format!("the face with the edges {}", names.join(" "))
        }
    }
}

/// The edges below an element of rank 2 or more, ascending.
pub fn edges_of(figure: &Figure, rank: usize, number: usize) -> Vec<usize> {
    let mut elements = vec![number];
    for below in (3..=rank).rev() {
        let subs = elements.iter().flat_map(|&e| &figure.ranks[below][e]);
        elements = subs.map(|&sub| sub as usize).collect();
        elements.sort_unstable();
        elements.dedup();
    }
    elements
}

/// How many groups the facets fall into where those with a common ridge belong
/// together.
fn pieces(figure: &Figure) -> usize {
    let facets = facets(figure);
    let mut leader: Vec<usize> = (0..facets.len()).collect();
    let mut holder: HashMap<u32, usize> = HashMap::new();
    for (f, ridges) in facets.iter().enumerate() {
        for &ridge in ridges {
            let other = *holder.entry(ridge).or_insert(f);
            let (a, b) = (leading(&leader, f), leading(&leader, other));
            leader[a.max(b)] = a.min(b);
        }
    }
    (0..facets.len()).filter(|&f| leader[f] == f).count()
}

fn leading(leader: &[usize], mut facet: usize) -> usize {
    while leader[facet] != facet {
        facet = leader[facet];
    }
    facet
}
