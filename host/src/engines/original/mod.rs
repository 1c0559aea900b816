//! The original functions, as the build script cut and patched them, with
//! stand-ins for what they lean on: vectors (as [3.4] to [3.6] have them), ranks of
//! elements, hashed collections with a fixed hash, and the watch over a run.

mod hashes;
mod ranks;
mod vectors;
mod watch;

use std::collections::{BTreeMap, VecDeque};
use std::io::Write;

use faceting_register::answer::Pair;
use faceting_register::{Answer, Entry, Figure, Job, Package, Stop};

use crate::engines::judgement::{Bounds, Events};
use hashes::{HashMap, HashSet};
use ranks::{Abstract, Element, ElementList, Ranks, Subelements, Superelements};
use vectors::{Float, Instant, Point, PointOrd, Vector};
use watch::watched;

/// Nothing is ever printed, so the line that is cleared and the delay between
/// two prints have no meaning here.
const CL: &str = "";
const DELAY: u128 = u128::MAX;

/// Swallows the block that it stands in front of.
macro_rules! never_run {
    ($($inside:tt)*) => {
        unreachable!("the uniform filter is never asked for")
    };
}

/// Warnings about the original are no concern of this crate.
#[allow(warnings, clippy::all)]
#[rustfmt::skip]
mod cut {
    use super::*;
    include!(concat!(env!("OUT_DIR"), "/original.rs"));

    /// What is private in the original, for the module above.
    pub(super) fn run(plane: Subspace<f64>, job: &Job, package: Option<&Package>) -> Found {
        let points = job.points.iter().map(|p| PointOrd::new(Point::from(p)));
        let row = |row: &Vec<u8>| row.iter().map(|&v| v.into()).collect();
        let full: Vec<Vec<usize>> = package.iter().flat_map(|p| p.rows.iter().map(row)).collect();
        let global: Vec<usize> = package.map_or(Vec::new(), |p| row(&p.global));
        faceting_subdim(
            job.rank.into(),
            plane,
            points.collect(),
            job.rows.iter().map(row).collect(),
            job.min,
            job.max,
            job.limit.map(|m| m as usize),
            false,
            package.map(|p| (&full, &global, p.count.into())),
            false,
        )
    }

    /// What is private in the original, again.
    pub(super) fn plain(lists: &Vec<Vec<(usize, usize)>>) -> Vec<usize> {
        filter_irc(lists)
    }
}

/// What the original returns: entries, orbit counts, possible facets, compounds.
type Found = (
    Vec<(Ranks, Vec<(usize, usize)>)>,
    Vec<usize>,
    Vec<Vec<Ranks>>,
    HashMap<usize, (usize, usize)>,
);

/// The original's answer to an accepted job, called with that package if there is one,
/// each figure renumbered.
pub fn faceting(
    job: &Job,
    package: Option<&Package>,
    bounds: &Bounds,
) -> (Result<Answer, Stop>, Events) {
    let plane = cut::Subspace {
        basis: job.basis.iter().map(Point::from).collect(),
        offset: Point::from(&job.offset),
    };
    let (found, events) = watched(bounds, job, || cut::run(plane, job, package));
    (found.map(|found| answer(job, &events, found)), events)
}

fn answer(job: &Job, events: &Events, found: Found) -> Answer {
    let (entries, counts, facets, compounds) = found;
    let pairs = |list: &[(usize, usize)]| -> Vec<Pair> {
        list.iter().map(|&(a, b)| (a as u32, b as u32)).collect()
    };
    // At rank 2 no list is emitted, and none is split.
    let entry = |(e, (ranks, list)): (usize, (Ranks, Vec<(usize, usize)>))| Entry {
        before: match job.rank {
            2 => pairs(&list),
            _ => pairs(&events.before[e]),
        },
        list: pairs(&list),
        figure: renumbered(ranks),
    };
    let orbit = |figures: Vec<Ranks>| figures.into_iter().map(renumbered).collect();
    let mut compounds: Vec<[u32; 3]> = compounds
        .iter()
        .map(|(&a, &(b, c))| [a, b, c].map(|entry| entry as u32))
        .collect();
    compounds.sort_unstable();
    let entries: Vec<Entry> = entries.into_iter().enumerate().map(entry).collect();
    Answer {
        examined: events.examined,
        counts: counts.into_iter().map(|count| count as u32).collect(),
        summaries: entries.iter().map(|e| e.figure.summary()).collect(),
        entries,
        facets: facets.into_iter().map(orbit).collect(),
        compounds,
    }
}

fn renumbered(mut ranks: Ranks) -> Figure {
    ranks.element_sort_strong();
    let subs = |element: &Element| element.subs.iter().map(|&sub| sub as u32).collect();
    let elements = |rank: &ElementList| rank.iter().map(subs).collect();
    Figure {
        ranks: ranks.iter().map(elements).collect(),
    }
}

/// The numbers of the lists in which the original's walk finds no other list.
pub fn plain_lists(lists: &Vec<Vec<(usize, usize)>>) -> Vec<usize> {
    cut::plain(lists)
}
