//! The known jobs of [14.2] by name, in the text form, with what is known of each
//! as far as a returned value tells it.

use crate::format::text;

/// A job of the list of known jobs, [14.2] of docs/SPECIFICATION.md.
pub struct KnownJob {
    /// What the list calls it.
    pub name: &'static str,
    /// The job in the text form.
    pub text: &'static str,
    /// The refusal number that the list names; 0 where it has an answer.
    pub refusal: u8,
}

const fn known(name: &'static str, text: &'static str, refusal: u8) -> KnownJob {
    KnownJob {
        name,
        text,
        refusal,
    }
}

macro_rules! twenty {
    ($more:literal) => {
        concat!(
            "points\n0 0\n1 0\n2 0\n3 0\n4 0\n5 0\n6 0\n7 0\n8 0\n9 0\n10 0\n11 0\n12 0\n13 0\n",
            "14 0\n15 0\n16 0\n17 0\n18 0\n19 0\n",
            $more
        )
    };
}

const TWENTY: &str = twenty!("");
const TWENTY_ONE: &str = twenty!("20 0\n");

/// The list, in its order.
pub const KNOWN_JOBS: &[KnownJob] = &[
    known("rank 2, two points", "rank 2\npoints\n0\n1\n", 0),
    known(
        "rank 2 with the swap",
        "rank 2\npoints\n0\n1\ngenerators\n1 0\n",
        0,
    ),
    known(
        "square, its 8 symmetries",
        "points\n0 0\n1 0\n1 1\n0 1\ngenerators\n1 2 3 0\n0 3 2 1\n",
        0,
    ),
    known(
        "square, its 8 symmetries, max 1.2",
        "points\n0 0\n1 0\n1 1\n0 1\ngenerators\n1 2 3 0\n0 3 2 1\nmax 1.2\n",
        0,
    ),
    known(
        "square, its 8 symmetries, max 0.5",
        "points\n0 0\n1 0\n1 1\n0 1\ngenerators\n1 2 3 0\n0 3 2 1\nmax 0.5\n",
        0,
    ),
    known("square", "points\n0 0\n1 0\n1 1\n0 1\n", 0),
    known(
        "square, limit 0",
        "points\n0 0\n1 0\n1 1\n0 1\nlimit 0\n",
        0,
    ),
    known(
        "square, limit 1",
        "points\n0 0\n1 0\n1 1\n0 1\nlimit 1\n",
        0,
    ),
    known(
        "parabola of six points",
        "points\n0 0\n1 1\n2 4\n3 9\n4 16\n5 25\n",
        0,
    ),
    known(
        "tetrahedron at rank 4",
        "points\n0 0 0\n1 0 0\n0 1 0\n0 0 1\n",
        0,
    ),
    known(
        "tetrahedron at rank 4, budget 27",
        "points\n0 0 0\n1 0 0\n0 1 0\n0 0 1\nbudget 27\n",
        0,
    ),
    known(
        "tetrahedron at rank 4, budget 26",
        "points\n0 0 0\n1 0 0\n0 1 0\n0 0 1\nbudget 26\n",
        16,
    ),
    known("three points on a line", "points\n0 0\n1 0\n2 0\n", 0),
    known(
        "third point within the tolerance",
        "points\n0 0\n1 0\n0.5 0.00000004\n",
        0,
    ),
    known(
        "third point beyond the tolerance",
        "points\n0 0\n1 0\n0.5 0.0000002\n",
        0,
    ),
    known(
        "a refit with two vectors",
        "points\n0 0\n0.001 0.00000005\n1 0\n",
        14,
    ),
    known("20 points", TWENTY, 0),
    known("21 points", TWENTY_ONE, 5),
    known("1 point", "points\n0 0\n", 5),
    known("a job of 10 bytes", "bytes 46435401000302040100\n", 1),
];

impl KnownJob {
    /// The job's bytes.
    pub fn job(&self) -> Result<Vec<u8>, String> {
        text::encode(self.text).map_err(|reason| format!("{}: {reason}", self.name))
    }
}
