//! What is told of an answer to a job with a package: which package, what is promised of
//! the list, and the host's own look at what the figures make on the full set.

use std::collections::{BTreeMap, BTreeSet};

use faceting_register::{Answer, Figure, Job, Package};

use super::hash;
use super::label::counted;

/// What the label has of it: at rank 2 a package makes no difference.
pub const LABEL: &str = "by a package, over the orbits that it keeps";

/// What is proved of every list [17.11].
const EVERY_ENTRY: &str = "proved: each entry is that of a closed choice over the orbits that the \
package keeps";

/// What is proved beside it without a limit.
const MINIMAL: &str = "; and, where a facet's shares in a ridge orbit are always equal, these are \
all such choices with no closed choice properly inside, once each";

/// At rank 2.
const NONE: &str = "at rank 2 a package makes no difference";

/// What the words mean that a page has for its package.
pub const WORDS: &str = "\
A package names a larger set, the full set, of which the points here are some. An orbit is
kept where the package's tally for it is 2 or more; the others are dropped before anything
is made of them, and a closed choice is not extended. The host's own look is what stands
under the full set: the images of an entry's figure under all full rows, as facets of one
figure there. With a package it is not asked which figures are plain.
";

/// An edge of the full set: its two points.
type Edge = [u8; 2];

/// A facet of an entry's figure, which is a ridge on the full set: its edges.
type Ridge = Vec<Edge>;

/// What an entry's figure makes on the full set.
#[derive(Clone, Debug, PartialEq, Eq)]
pub struct Full {
    /// Different images of the figure under the full rows.
    pub facets: usize,
    /// Different ridges that they have: at rank 3 edges, at rank 4 polygons.
    pub ridges: usize,
    /// Points at which an edge ends.
    pub points: usize,
    /// The least and the greatest number of facets that a ridge lies in.
    pub around: [usize; 2],
}

impl Full {
    /// Of a figure whose facets are edges or sets of edges.
    fn of(package: &Package, figure: &Figure, rank: u8) -> Option<Full> {
        let facets = facets(figure, rank)?;
        let global = |row: &[u8], v: u32| row[usize::from(package.global[v as usize])];
        let image = |row: &Vec<u8>| -> BTreeSet<Ridge> {
            let edge = |&[a, b]: &[u32; 2]| {
                let mut ends = [global(row, a), global(row, b)];
                ends.sort_unstable();
                ends
            };
            let ridge = |edges: &Vec<[u32; 2]>| {
                let mut edges: Ridge = edges.iter().map(edge).collect();
                edges.sort_unstable();
                edges
            };
            facets.iter().map(ridge).collect()
        };
        let images: BTreeSet<BTreeSet<Ridge>> = package.rows.iter().map(image).collect();
        let mut around: BTreeMap<&Ridge, usize> = BTreeMap::new();
        for ridge in images.iter().flatten() {
            *around.entry(ridge).or_default() += 1;
        }
        let points: BTreeSet<u8> = around.keys().flat_map(|ridge| ridge.concat()).collect();
        Some(Full {
            facets: images.len(),
            ridges: around.len(),
            points: points.len(),
            around: [
                around.values().copied().min()?,
                around.values().copied().max()?,
            ],
        })
    }

    /// Whether each ridge lies in just two facets.
    pub fn closes(&self) -> bool {
        self.around == [2, 2]
    }

    fn words(&self, rank: u8) -> String {
        let (one, many) = match rank {
            3 => ("edge", "edges"),
            _ => ("polygon", "polygons"),
        };
        let facets = counted(self.facets, "facet", "facets");
        let ridges = counted(self.ridges, one, many);
        let points = counted(self.points, "point", "points");
        let around = match self.around {
            [least, most] if least == most => least.to_string(),
            [least, most] => format!("{least} to {most}"),
        };
        format!("{facets}, {ridges}, {points}; each {one} lies in {around} of the facets")
    }
}

/// The facets of a figure by their edges, at ranks 3 and 4.
fn facets(figure: &Figure, rank: u8) -> Option<Vec<Vec<[u32; 2]>>> {
    let edge = |subs: &Vec<u32>| <[u32; 2]>::try_from(&subs[..]).ok();
    let edges: Vec<[u32; 2]> = figure
        .ranks
        .get(2)?
        .iter()
        .map(edge)
        .collect::<Option<_>>()?;
    let polygon = |subs: &Vec<u32>| {
        subs.iter()
            .map(|&e| edges.get(e as usize).copied())
            .collect()
    };
    match rank {
        3 => Some(edges.iter().map(|&edge| vec![edge]).collect()),
        4 => figure.ranks.get(3)?.iter().map(polygon).collect(),
        _ => None,
    }
}

/// Everything that is told of a package.
#[derive(Clone, Debug)]
pub struct Noble {
    /// The package.
    pub package: Package,
    /// The hash of its bytes.
    pub hash: String,
    /// What each entry's figure makes on the full set; nothing at rank 2.
    pub full: Vec<Option<Full>>,
}

impl Noble {
    /// Of the package that a job was answered with.
    pub fn of(job: &Job, answer: &Answer, package: Package) -> Noble {
        let figures = answer.entries.iter().map(|entry| &entry.figure);
        Noble {
            hash: hash::sha256(&package.write()),
            full: figures
                .map(|figure| Full::of(&package, figure, job.rank))
                .collect(),
            package,
        }
    }

    /// What is promised of the list.
    pub fn promise(&self, job: &Job) -> String {
        match (job.rank, job.limit) {
            (2, _) => NONE.into(),
            (_, Some(_)) => EVERY_ENTRY.into(),
            (_, None) => format!("{EVERY_ENTRY}{MINIMAL}"),
        }
    }

    /// The package in a line.
    pub fn words(&self) -> String {
        let Package {
            points,
            count,
            global,
            rows,
        } = &self.package;
        let rows = counted(rows.len(), "full row", "full rows");
        let global: Vec<String> = global.iter().map(u8::to_string).collect();
        format!(
            "{rows} of {points} points, count {count}; the points here are {}",
            global.join(" ")
        )
    }

    /// A line for each entry, where there is something to tell.
    pub fn lines(&self, rank: u8) -> Vec<String> {
        let line = |(e, full): (usize, &Option<Full>)| {
            let words = full.as_ref()?.words(rank);
            Some(format!("entry {e}: {words}"))
        };
        self.full.iter().enumerate().filter_map(line).collect()
    }
}
