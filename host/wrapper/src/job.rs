//! Job bytes: their layout, both ways, and the refusals that need no faceting.

use std::collections::HashSet;

use crate::bounds::{self, workspace_length};
use crate::refusal::Refusal;

/// The letters that begin a job.
pub const MARK: &[u8; 3] = b"FCT";

/// The version of a job that names no tolerance.
pub const VERSION: u16 = 1;

/// The first version whose jobs name a tolerance.
pub const TOLERANCE_VERSION: u16 = 2;

/// The first version whose jobs name a rule of crowded lines.
pub const RULE_VERSION: u16 = 3;

/// The bytes in front of a job's numbers.
pub const HEADER_LENGTH: usize = 11;

/// The budget of a job that names none.
pub const DEFAULT_BUDGET: u32 = 1_000_000;

/// Where rank and number of points stand.
const RANK_AT: usize = 5;
const POINT_COUNT_AT: usize = 7;

const MIN_FLAG: u8 = 1;
const MAX_FLAG: u8 = 2;
const LIMIT_FLAG: u8 = 4;
const ALL_FLAGS: u8 = MIN_FLAG | MAX_FLAG | LIMIT_FLAG;

/// The rank that the bytes of a job name; 0 where they are too short to.
pub fn rank_of(bytes: &[u8]) -> u8 {
    bytes.get(RANK_AT).copied().unwrap_or(0)
}

/// The number of points that the bytes of a job name; 0 where they are too short to.
pub fn point_count_of(bytes: &[u8]) -> u8 {
    bytes.get(POINT_COUNT_AT).copied().unwrap_or(0)
}

/// A job whose bytes are laid out as its own fields say. It may still break the
/// register's rules. Number of points, number of rows and flags are implied.
#[derive(Clone, Debug, PartialEq)]
pub struct Job {
    /// Of the layout; the register takes `bounds::VERSIONS`.
    pub version: u16,
    /// 2: a line, 3: figures in a plane, 4: solids.
    pub rank: u8,
    /// Coordinates of a point.
    pub dimension: u8,
    /// Least length of an edge.
    pub min: Option<f64>,
    /// Greatest length of an edge.
    pub max: Option<f64>,
    /// Figures after which the search of each call stops.
    pub limit: Option<u32>,
    /// Distances below it count as none. Written from `TOLERANCE_VERSION` on; before, it
    /// is `bounds::TOLERANCE`.
    pub tolerance: f64,
    /// The rule of crowded lines. Written from `RULE_VERSION` on; before, it is
    /// `bounds::RULE`.
    pub rule: u8,
    /// Lists that may be examined, over all calls.
    pub budget: u32,
    /// A point of the plane that the set is seen in.
    pub offset: Vec<f64>,
    /// The directions of that plane.
    pub basis: Vec<Vec<f64>>,
    /// The vertex set.
    pub points: Vec<Vec<f64>>,
    /// Its symmetries: where each point is carried to. The first is the identity.
    pub rows: Vec<Vec<u8>>,
}

/// The fixed fields in front.
struct Header {
    version: u16,
    rank: u8,
    dimension: u8,
    points: u8,
    rows: u16,
    flags: u8,
}

impl Header {
    fn read(bytes: &[u8]) -> Option<Header> {
        let fields = bytes.strip_prefix(MARK)?.get(..HEADER_LENGTH - 3)?;
        Some(Header {
            version: u16::from_le_bytes([fields[0], fields[1]]),
            rank: fields[2],
            dimension: fields[3],
            points: fields[4],
            rows: u16::from_le_bytes([fields[5], fields[6]]),
            flags: fields[7],
        })
    }

    fn check(&self) -> Result<(), Refusal> {
        refuse_unless(bounds::VERSIONS.contains(&self.version), Refusal::Version)?;
        refuse_unless(bounds::RANKS.contains(&self.rank), Refusal::Rank)?;
        let dimensions = self.rank - 1..=bounds::MOST_COORDINATES;
        refuse_unless(dimensions.contains(&self.dimension), Refusal::Dimension)?;
        refuse_unless(bounds::POINTS.contains(&self.points), Refusal::PointCount)?;
        let rows = 1..=bounds::MOST_ROWS;
        refuse_unless(rows.contains(&self.rows.into()), Refusal::RowCount)?;
        refuse_unless(self.flags <= ALL_FLAGS, Refusal::Flags)
    }
}

fn refuse_unless(fine: bool, refusal: Refusal) -> Result<(), Refusal> {
    if fine {
        Ok(())
    } else {
        Err(refusal)
    }
}

/// The refusals before the call, in their order; the job if there is none.
pub fn accept(bytes: &[u8], workspace: usize) -> Result<Job, Refusal> {
    let job = accept_fields(bytes)?;
    let enough = workspace >= workspace_length(job.rank);
    refuse_unless(enough, Refusal::Workspace)?;
    Ok(job)
}

/// The refusals of the job's own fields, which come before that of the workspace.
pub fn accept_fields(bytes: &[u8]) -> Result<Job, Refusal> {
    Header::read(bytes).ok_or(Refusal::Mark)?.check()?;
    let job = Job::read(bytes).ok_or(Refusal::Length)?;
    refuse_unless(job.numbers_in_bounds(), Refusal::Number)?;
    let tolerated = bounds::TOLERANCES.contains(&job.tolerance);
    refuse_unless(tolerated, Refusal::Tolerance)?;
    refuse_unless(bounds::RULES.contains(&job.rule), Refusal::Rule)?;
    let identity = job.rows.first().is_some_and(|row| is_identity(row));
    refuse_unless(identity, Refusal::Identity)?;
    let permutations = job.rows.iter().all(|row| is_permutation(row));
    refuse_unless(permutations, Refusal::Permutation)?;
    Ok(job)
}

/// Whether the row leaves every point in its place.
pub fn is_identity(row: &[u8]) -> bool {
    row.iter().enumerate().all(|(v, &w)| v == usize::from(w))
}

/// Whether the row names each point once.
pub fn is_permutation(row: &[u8]) -> bool {
    let mut seen = vec![false; row.len()];
    row.iter().all(|&v| match seen.get_mut(usize::from(v)) {
        Some(mark) => !std::mem::replace(mark, true),
        None => false,
    })
}

/// The row that leaves so many points in their places.
pub fn identity_row(points: usize) -> Vec<u8> {
    (0..points).map(|v| v as u8).collect()
}

/// First v under `first`, then its image under `second`.
pub fn compose(first: &[u8], second: &[u8]) -> Vec<u8> {
    first.iter().map(|&v| second[usize::from(v)]).collect()
}

/// The first unit vectors; behind the last there are only zero vectors.
pub fn unit_vectors(count: usize, dimension: usize) -> Vec<Vec<f64>> {
    let number = |i, j| if i == j { 1.0 } else { 0.0 };
    let vector = |i| (0..dimension).map(|j| number(i, j)).collect();
    (0..count).map(vector).collect()
}

impl Job {
    /// A job with the usual values: identity row, unit basis, no limits.
    pub fn usual(rank: u8, points: Vec<Vec<f64>>) -> Job {
        let dimension = points.first().map_or(0, Vec::len);
        Job {
            version: VERSION,
            rank,
            dimension: dimension as u8,
            min: None,
            max: None,
            limit: None,
            tolerance: bounds::TOLERANCE,
            rule: bounds::RULE,
            budget: DEFAULT_BUDGET,
            offset: vec![0.0; dimension],
            basis: unit_vectors(usize::from(rank).saturating_sub(1), dimension),
            rows: vec![identity_row(points.len())],
            points,
        }
    }

    /// The job, if the bytes are exactly as long as their fields say.
    pub fn read(bytes: &[u8]) -> Option<Job> {
        let header = Header::read(bytes)?;
        if header.flags > ALL_FLAGS || header.rank == 0 {
            return None;
        }
        let mut rest = Fields(&bytes[HEADER_LENGTH..]);
        let present = |flag| header.flags & flag != 0;
        let has_tolerance = header.version >= TOLERANCE_VERSION;
        let has_rule = header.version >= RULE_VERSION;
        let (d, n) = (usize::from(header.dimension), usize::from(header.points));
        let job = Job {
            version: header.version,
            rank: header.rank,
            dimension: header.dimension,
            min: rest.optional(present(MIN_FLAG), Fields::float)?,
            max: rest.optional(present(MAX_FLAG), Fields::float)?,
            limit: rest.optional(present(LIMIT_FLAG), Fields::word)?,
            tolerance: rest
                .optional(has_tolerance, Fields::float)?
                .unwrap_or(bounds::TOLERANCE),
            rule: rest
                .optional(has_rule, Fields::byte)?
                .unwrap_or(bounds::RULE),
            budget: rest.word()?,
            offset: rest.floats(d)?,
            basis: rest.many(usize::from(header.rank) - 1, |r| r.floats(d))?,
            points: rest.many(n, |r| r.floats(d))?,
            rows: rest.many(usize::from(header.rows), |r| r.row(n))?,
        };
        rest.0.is_empty().then_some(job)
    }

    /// The job's bytes.
    pub fn write(&self) -> Vec<u8> {
        let mut bytes = MARK.to_vec();
        bytes.extend(self.version.to_le_bytes());
        bytes.extend([self.rank, self.dimension, self.points.len() as u8]);
        bytes.extend((self.rows.len() as u16).to_le_bytes());
        bytes.push(self.flags());
        for length in [self.min, self.max].into_iter().flatten() {
            bytes.extend(length.to_le_bytes());
        }
        bytes.extend(self.limit.into_iter().flat_map(u32::to_le_bytes));
        if self.version >= TOLERANCE_VERSION {
            bytes.extend(self.tolerance.to_le_bytes());
        }
        if self.version >= RULE_VERSION {
            bytes.push(self.rule);
        }
        bytes.extend(self.budget.to_le_bytes());
        bytes.extend(self.coordinates().flat_map(f64::to_le_bytes));
        bytes.extend(self.rows.iter().flatten());
        bytes
    }

    fn flags(&self) -> u8 {
        let bit = |present, flag| if present { flag } else { 0 };
        bit(self.min.is_some(), MIN_FLAG)
            | bit(self.max.is_some(), MAX_FLAG)
            | bit(self.limit.is_some(), LIMIT_FLAG)
    }

    /// Offset, basis and points, as they stand in the bytes.
    fn coordinates(&self) -> impl Iterator<Item = f64> + '_ {
        let vectors = self.basis.iter().chain(&self.points).flatten();
        self.offset.iter().chain(vectors).copied()
    }

    /// A comparison with NaN fails, so each test also asks for a number.
    fn numbers_in_bounds(&self) -> bool {
        let within = |bound: f64| move |x: &f64| x.abs() <= bound;
        let lengths = [self.min, self.max];
        let places = self.points.iter().flatten().chain(&self.offset);
        lengths
            .iter()
            .flatten()
            .all(|&x| (0.0..=bounds::LONGEST_EDGE).contains(&x))
            && self
                .basis
                .iter()
                .flatten()
                .all(within(bounds::LONGEST_BASIS))
            && places.into_iter().all(within(bounds::FARTHEST))
            && self.tolerance.is_finite()
    }

    /// Whether each row after another is again a row.
    pub fn rows_closed(&self) -> bool {
        let known: HashSet<&[u8]> = self.rows.iter().map(Vec::as_slice).collect();
        let after = |a| move |b: &Vec<u8>| compose(a, b);
        let mut products = self
            .rows
            .iter()
            .flat_map(|a| self.rows.iter().map(after(a)));
        products.all(|row| known.contains(row.as_slice()))
    }
}

/// Job bytes that are still to be read.
struct Fields<'a>(&'a [u8]);

impl Fields<'_> {
    fn array<const N: usize>(&mut self) -> Option<[u8; N]> {
        let (front, behind) = self.0.split_first_chunk()?;
        self.0 = behind;
        Some(*front)
    }

    fn byte(&mut self) -> Option<u8> {
        self.array().map(|[byte]| byte)
    }

    fn word(&mut self) -> Option<u32> {
        self.array().map(u32::from_le_bytes)
    }

    fn float(&mut self) -> Option<f64> {
        self.array().map(f64::from_le_bytes)
    }

    fn floats(&mut self, count: usize) -> Option<Vec<f64>> {
        self.many(count, Fields::float)
    }

    fn row(&mut self, points: usize) -> Option<Vec<u8>> {
        self.many(points, Fields::byte)
    }

    fn many<T>(&mut self, count: usize, one: impl Fn(&mut Self) -> Option<T>) -> Option<Vec<T>> {
        (0..count).map(|_| one(self)).collect()
    }

    /// The outer `None` is a lack of bytes, the inner one an absent field.
    fn optional<T>(
        &mut self,
        present: bool,
        one: impl Fn(&mut Self) -> Option<T>,
    ) -> Option<Option<T>> {
        if present {
            one(self).map(Some)
        } else {
            Some(None)
        }
    }
}
