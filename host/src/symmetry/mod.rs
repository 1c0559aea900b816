//! The symmetries of a job's points, found from the distances between them: every
//! permutation that keeps each distance, by backtracking. It is the host's own look
//! at the set; the register takes rows as they stand.
//!
//! The distances are those of the flattened points, in which the register fits its
//! planes; where the job has min or max, also those of the points as given, which
//! these limits speak of.

mod carried;
mod chain;
mod comparison;
mod distances;
mod orientation;
mod report;

use std::slice::from_ref;

use faceting_register::bounds::{MOST_ROWS, POINTS};
use faceting_register::job::Job;
use faceting_register::rows::closure;

use crate::geometry::flattened;
use chain::Chain;
use orientation::Orientation;

pub use carried::{carries, Carried};
pub use comparison::{comparison, Comparison};
pub use distances::Distances;
pub use report::report;

/// Which symmetries.
#[derive(Clone, Copy, Debug, PartialEq, Eq)]
pub enum Kind {
    /// All of them.
    Full,
    /// Those that do not turn the set into its mirror image.
    Turns,
}

impl Kind {
    /// The word for it behind the keyword `symmetry`.
    pub fn word(self) -> &'static str {
        match self {
            Kind::Full => "full",
            Kind::Turns => "turns",
        }
    }
}

/// All symmetries of a set, as a chain of the groups that keep more and more points.
pub struct Symmetry {
    chain: Chain,
    orientation: Orientation,
}

/// A group of symmetries: permutations that make it up, and how many there are.
pub struct Group {
    generators: Vec<Vec<u8>>,
    /// How many symmetries it has.
    pub order: u64,
    points: usize,
}

impl Symmetry {
    /// The symmetries of a job's points; none for a job that is refused for its
    /// points anyway: too few, too many, or with a number that is none.
    pub fn of(job: &Job) -> Option<Symmetry> {
        let finite = |vectors: &[Vec<f64>]| vectors.iter().flatten().all(|x| x.is_finite());
        let sound = finite(&job.points) && finite(&job.basis) && finite(from_ref(&job.offset));
        let few = u8::try_from(job.points.len()).is_ok_and(|points| POINTS.contains(&points));
        if !sound || !few {
            return None;
        }
        Some(Symmetry {
            chain: Chain::of(&Distances::of(job)),
            orientation: Orientation::of(&flattened(job), distances::tolerance_of(job)),
        })
    }

    /// Whether a symmetry is a turn.
    pub fn is_turn(&self, row: &[u8]) -> bool {
        self.orientation.is_kept(row)
    }

    /// All symmetries, or the turns among them.
    pub fn group(&self, kind: Kind) -> Group {
        self.keeping(0, kind)
    }

    /// Those that leave the first points, so many, in their places.
    fn keeping(&self, fixed: usize, kind: Kind) -> Group {
        let generators = self.chain.generators(fixed);
        let order = self.chain.order(fixed);
        let mirror = generators.iter().find(|row| !self.is_turn(row));
        let points = self.chain.points();
        match (kind, mirror) {
            (Kind::Turns, Some(mirror)) => Group {
                generators: self.turns(&generators, mirror),
                order: order / 2,
                points,
            },
            _ => Group {
                generators,
                order,
                points,
            },
        }
    }

    /// Generators of the turns: of each generator that is one, and its like behind
    /// a mirror; of the others, what they and the mirror make together (Schreier).
    fn turns(&self, generators: &[Vec<u8>], mirror: &[u8]) -> Vec<Vec<u8>> {
        let back = inverse(mirror);
        let made = |row: &Vec<u8>| match self.is_turn(row) {
            true => [row.clone(), product(&[mirror, row, &back])],
            false => [product(&[row, &back]), product(&[mirror, row])],
        };
        generators.iter().flat_map(made).collect()
    }

    /// The largest of the groups of turns that keep the first points, more and more
    /// of them, that a job can have as rows; with the number of points it keeps.
    pub fn fitting_turns(&self) -> (usize, Group) {
        let groups = (0..).map(|fixed| (fixed, self.keeping(fixed, Kind::Turns)));
        let mut fitting = groups.filter(|(_, group)| group.order <= MOST_ROWS as u64);
        fitting.next().expect("keeping all points leaves one row")
    }
}

impl Group {
    /// Every row, the identity first, if a job can have so many.
    pub fn rows(&self) -> Option<Vec<Vec<u8>>> {
        let fits = self.order <= MOST_ROWS as u64;
        fits.then(|| closure(self.points, &self.few_generators(), MOST_ROWS))
    }

    /// A few permutations that make up the group: those that go round longest first,
    /// and each one more than those before it make.
    pub fn few_generators(&self) -> Vec<Vec<u8>> {
        let most = MOST_ROWS + 1;
        let mut candidates = closure(self.points, &self.generators, most);
        if candidates.len() == most {
            candidates = self.generators.clone();
        }
        candidates.sort_by_cached_key(|row| (std::cmp::Reverse(period(row)), row.clone()));
        let mut few: Vec<Vec<u8>> = Vec::new();
        let mut made = closure(self.points, &few, most);
        for row in candidates {
            if !made.contains(&row) {
                few.push(row);
                made = closure(self.points, &few, most);
            }
        }
        few
    }
}

/// First one permutation, then the next.
fn product(rows: &[&[u8]]) -> Vec<u8> {
    let through = |v: u8| rows.iter().fold(v, |v, row| row[usize::from(v)]);
    let points = rows.first().map_or(0, |row| row.len());
    (0..points as u8).map(through).collect()
}

fn inverse(row: &[u8]) -> Vec<u8> {
    let mut inverse = vec![0; row.len()];
    for (v, &w) in row.iter().enumerate() {
        inverse[usize::from(w)] = v as u8;
    }
    inverse
}

/// After how many times every point is back in its place.
fn period(row: &[u8]) -> usize {
    let cycle = |start: usize| {
        let step = |v: &usize| Some(usize::from(row[*v]));
        1 + std::iter::successors(step(&start), step)
            .take_while(|&v| v != start)
            .count()
    };
    (0..row.len()).map(cycle).fold(1, least_multiple)
}

fn least_multiple(a: usize, b: usize) -> usize {
    let (mut divisor, mut rest) = (a, b);
    while rest > 0 {
        (divisor, rest) = (rest, divisor % rest);
    }
    a / divisor * b
}
