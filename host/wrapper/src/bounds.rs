//! The register's sizes, each said here and nowhere else.

use std::ops::RangeInclusive;

/// Versions of a job's layout.
pub const VERSIONS: RangeInclusive<u16> = 1..=3;

/// Ranks that a job may have: a line, figures in a plane, solids.
pub const RANKS: RangeInclusive<u8> = 2..=4;

/// The most coordinates of a point.
pub const MOST_COORDINATES: u8 = 4;

/// How many points a job may have.
pub const POINTS: RangeInclusive<u8> = 2..=20;

/// The most rows of a job, and the most full rows of a package.
pub const MOST_ROWS: usize = 120;

/// How many points the full set of a package may have.
pub const FULL_POINTS: RangeInclusive<u8> = 2..=20;

/// Coordinates of points and of the offset lie within this of zero.
pub const FARTHEST: f64 = 65_536.0;

/// Numbers of the basis lie within this of zero.
pub const LONGEST_BASIS: f64 = 1.0;

/// The largest value of `min` and `max`.
pub const LONGEST_EDGE: f64 = 131_072.0;

/// The most hyperplane orbits of a call.
pub const MOST_ORBITS: usize = 256;

/// The most possible facets of a call.
pub const MOST_FACETS: usize = 1_024;

/// The most entries of a call.
pub const MOST_ENTRIES: usize = 1_024;

/// A point counts as lying on a plane where its distance is below this, unless the job
/// names another tolerance.
pub const TOLERANCE: f64 = 1e-7;

/// The tolerances that a job may name.
pub const TOLERANCES: RangeInclusive<f64> = 1e-9..=1e-3;

/// The rule of crowded lines where a job names none: as ported, a line opens an orbit
/// however many points it has.
pub const RULE: u8 = 1;

/// The society's rule: in a call of rank 3 a line with more than two points opens none.
pub const SOCIETY_RULE: u8 = 2;

/// The rules that a job may name.
pub const RULES: RangeInclusive<u8> = RULE..=SOCIETY_RULE;

/// The workspace of rank 3, in bytes.
pub const PLANE_WORKSPACE: usize = 524_288;

/// The workspace of rank 4, in bytes, which is enough for every rank.
pub const WORKSPACE: usize = 4_194_304;

/// The workspace that a rank asks for.
pub fn workspace_length(rank: u8) -> usize {
    match rank {
        3 => PLANE_WORKSPACE,
        4 => WORKSPACE,
        _ => 0,
    }
}
