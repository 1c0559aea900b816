//! The register's refusals by number.

/// Why a job got no answer. The discriminant is the refusal number.
#[derive(Clone, Copy, Debug, PartialEq, Eq)]
pub enum Refusal {
    /// Too short for a job, or another mark.
    Mark = 1,
    /// Another version.
    Version,
    /// Another rank.
    Rank,
    /// Too few or too many coordinates.
    Dimension,
    /// Too few or too many points.
    PointCount,
    /// No row, or too many.
    RowCount,
    /// An unknown flag.
    Flags,
    /// Longer or shorter than its fields say.
    Length,
    /// A number that is not finite, or too large.
    Number,
    /// The first row is not the identity.
    Identity,
    /// A row is no permutation.
    Permutation,
    /// Too short a workspace.
    Workspace,
    /// Too many orbits in a call.
    Orbits,
    /// A plane, fitted again to its points, has another dimension.
    Refit,
    /// Too many possible facets or entries in a call.
    Facets,
    /// The budget is used up.
    Budget,
    /// Too short an answer buffer.
    Room,
    /// A package that there is not; looked for behind `Permutation`.
    Package,
    /// A tolerance that is too small or too large; looked for behind `Number`.
    Tolerance = 22,
    /// Another rule of crowded lines; looked for behind `Tolerance`.
    Rule = 25,
}

use Refusal::*;

/// Every refusal with its words, ascending by number.
const ALL: [(Refusal, &str); 20] = [
    (Mark, "the job is under 11 bytes or has the wrong mark"),
    (Version, "the version is not 1 to 3"),
    (Rank, "the rank is not 2 to 4"),
    (Dimension, "d is below rank - 1 or above 4"),
    (PointCount, "the number of points is not 2 to 20"),
    (RowCount, "the number of rows is not 1 to 120"),
    (Flags, "a flag bit above 2 is set"),
    (Length, "the length is not as the fields say"),
    (Number, "a number is not finite or beyond its bound"),
    (Identity, "row 0 is not the identity"),
    (Permutation, "a row is not a permutation"),
    (Workspace, "the workspace is too short for the rank"),
    (Orbits, "a 257th hyperplane orbit in some call"),
    (Refit, "a refit without exactly rank - 2 basis vectors"),
    (Facets, "a 1,025th possible facet or entry in some call"),
    (Budget, "a list is due when the budget is used up"),
    (Room, "the answer buffer is too short"),
    (
        Package,
        "the package has a wrong length, number or full row",
    ),
    (Tolerance, "the tolerance is not 1e-9 to 1e-3"),
    (Rule, "the rule is not 1 or 2"),
];

impl Refusal {
    /// Its number, from 1.
    pub fn number(self) -> u8 {
        self as u8
    }

    /// The value that a call returns for it.
    pub fn code(self) -> i64 {
        -i64::from(self.number())
    }

    /// The refusal that a returned value stands for.
    pub fn from_code(code: i64) -> Option<Refusal> {
        Refusal::all().find(|r| r.code() == code)
    }

    /// What was met.
    pub fn words(self) -> &'static str {
        let own = ALL.iter().find(|row| row.0 == self);
        own.map_or("", |row| row.1)
    }

    /// Every refusal, ascending by number.
    pub fn all() -> impl Iterator<Item = Refusal> {
        ALL.iter().map(|row| row.0)
    }
}

impl std::error::Error for Refusal {}

impl std::fmt::Display for Refusal {
    fn fmt(&self, f: &mut std::fmt::Formatter<'_>) -> std::fmt::Result {
        write!(f, "refused {}: {}", self.number(), self.words())
    }
}
