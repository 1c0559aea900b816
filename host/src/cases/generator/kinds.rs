//! The kinds of cases: what each is made for, how often it is drawn, and how a
//! case of it is made.

use faceting_register::bounds::{workspace_length, TOLERANCE, WORKSPACE};
use faceting_register::job::{identity_row, unit_vectors, RULE_VERSION, TOLERANCE_VERSION};
use faceting_register::request::USUAL_ROOM;
use faceting_register::Job;

use super::rng::Rng;
use super::shapes::{self, Points};
use super::{damage, edges, symmetry};
use crate::cases::Room;

/// A case without its number, seed and kind.
pub struct Draft {
    /// The job's bytes.
    pub job: Vec<u8>,
    /// The length of the workspace.
    pub workspace: usize,
    /// The length of the answer buffer.
    pub room: Room,
}

/// A kind of cases.
pub struct Kind {
    /// One word, as a line of a case has it.
    pub name: &'static str,
    /// What it is good for.
    pub about: &'static str,
    /// How often it is drawn, among all kinds.
    pub weight: usize,
    /// Draws one.
    pub make: fn(&mut Rng) -> Draft,
}

const fn kind(
    name: &'static str,
    weight: usize,
    make: fn(&mut Rng) -> Draft,
    about: &'static str,
) -> Kind {
    Kind {
        name,
        about,
        weight,
        make,
    }
}

/// Every kind.
pub const KINDS: &[Kind] = &[
    kind(
        "polygon",
        8,
        polygon,
        "regular polygons, groups and subgroups",
    ),
    kind(
        "polyhedron",
        8,
        polyhedron,
        "regular and other polyhedra, groups and subgroups",
    ),
    kind(
        "lattice",
        12,
        lattice,
        "whole coordinates, all sorts of rows",
    ),
    kind("curve", 4, curve, "parabolas and moment curves"),
    kind("crowded", 8, crowded, "lines with more than two points"),
    kind(
        "near",
        8,
        near,
        "nearly degenerate points around the tolerance",
    ),
    kind("large", 5, large, "coordinates near the bound"),
    kind(
        "open-rows",
        14,
        open_rows,
        "rank 4 with rows that are not closed",
    ),
    kind(
        "plane",
        5,
        plane,
        "offset and basis other than the usual ones",
    ),
    kind(
        "limits",
        8,
        limits,
        "min, max and entry limit, lengths met exactly",
    ),
    kind("budget", 6, budget, "small budgets"),
    kind("pair", 2, pair, "rank 2"),
    kind(
        "orbits",
        1,
        edges::orbits,
        "256 hyperplane orbits and one more",
    ),
    kind(
        "facets",
        1,
        edges::facets,
        "1,024 possible facets and one more",
    ),
    kind("entries", 1, edges::entries, "1,024 entries and one more"),
    kind(
        "orders",
        1,
        edges::orders,
        "choices that are emitted more than once",
    ),
    kind(
        "counts",
        4,
        damage::counts,
        "both sides of the bounds on the header's fields",
    ),
    kind(
        "numbers",
        4,
        damage::numbers,
        "both sides of the bounds on floats",
    ),
    kind("rows", 2, damage::rows, "row 0 and other rows damaged"),
    kind("damaged", 8, damage::bytes, "a byte altered at any place"),
    kind("cut", 3, damage::length, "jobs too short or too long"),
    kind(
        "workspace",
        3,
        workspace,
        "workspace lengths around the bounds",
    ),
    kind(
        "room",
        4,
        room,
        "answer buffers exactly full, short and long",
    ),
    kind(
        "tolerance",
        0,
        tolerance,
        "version 2: the kinds near, brink and limits around another tolerance, and the range's ends; never drawn, only named",
    ),
    kind(
        "rule",
        0,
        rule,
        "version 3: sets with crowded lines under either rule, and other rules; never drawn, only named",
    ),
    kind(
        "brink",
        0,
        brink,
        "a distance at the tolerance to the last bit; never drawn, only named",
    ),
];

/// What most cases get: a workspace and a buffer of more than their answer takes.
pub fn wide(job: Job) -> Draft {
    wide_bytes(job.write())
}

/// The same of bytes that need be no job.
pub fn wide_bytes(job: Vec<u8>) -> Draft {
    Draft {
        job,
        workspace: WORKSPACE,
        room: Room::Bytes(USUAL_ROOM),
    }
}

/// A job on the points with some rows and a budget that keeps it quick.
pub fn with_rows(rng: &mut Rng, points: Points) -> Job {
    let dimension = points.first().map_or(1, Vec::len);
    let rank = (dimension + 1).min(4) as u8;
    let rows = symmetry::some_rows(rng, &points);
    Job {
        rows,
        budget: usual_budget(rng),
        ..Job::usual(rank, points)
    }
}

fn usual_budget(rng: &mut Rng) -> u32 {
    *rng.pick(&[400, 2_000, 2_000, 5_000])
}

/// Any quick job, to be damaged, limited or cut short.
pub fn small_job(rng: &mut Rng) -> Job {
    let points = match rng.below(5) {
        0 => shapes::polygon(rng.within(3, 5)),
        1 => shapes::moment_curve(rng.within(3, 5), 2),
        2 => shapes::tetrahedron(),
        dimension => {
            let dimension = dimension - 1;
            let points = rng.within(dimension + 1, 6);
            shapes::lattice(rng, points, dimension, 3)
        }
    };
    with_rows(rng, points)
}

fn polygon(rng: &mut Rng) -> Draft {
    let corners = match rng.below(3) {
        0 => rng.within(7, 20),
        _ => rng.within(3, 7),
    };
    wide(with_rows(rng, shapes::polygon(corners)))
}

fn polyhedron(rng: &mut Rng) -> Draft {
    let points = match rng.below(9) {
        0 => shapes::tetrahedron(),
        1 => shapes::cube(),
        2 => shapes::octahedron(),
        3 => shapes::cuboctahedron(),
        4 => shapes::icosahedron(),
        5 => shapes::dodecahedron(),
        6 => shapes::prism(rng.within(3, 6), 0.0),
        7 => shapes::prism(rng.within(3, 6), 0.5),
        _ => shapes::pyramid(rng.within(3, 8)),
    };
    wide(with_rows(rng, points))
}

/// Points on a lattice: few enough that most jobs end within their budget.
fn lattice_points(rng: &mut Rng) -> Points {
    let dimension = rng.within(2, 3);
    let most = if rng.once_in(4) { 10 } else { 6 };
    let points = rng.within(dimension + 1, most);
    let side = rng.within(2, 4);
    shapes::lattice(rng, points, dimension, side)
}

fn lattice(rng: &mut Rng) -> Draft {
    let points = lattice_points(rng);
    wide(with_rows(rng, points))
}

fn curve(rng: &mut Rng) -> Draft {
    let dimension = rng.within(2, 3);
    let points = shapes::moment_curve(rng.within(3, 8), dimension);
    wide(with_rows(rng, points))
}

fn crowded(rng: &mut Rng) -> Draft {
    let dimension = rng.within(2, 3);
    let most = *rng.pick(&[6, 6, 9, 20]);
    let points = rng.within(4, most);
    let points = shapes::crowded(rng, points, dimension);
    wide(with_rows(rng, points))
}

/// Any small set, moved by about the tolerance; sometimes with points twice.
fn near(rng: &mut Rng) -> Draft {
    wide(near_job(rng, TOLERANCE))
}

fn near_job(rng: &mut Rng, tolerance: f64) -> Job {
    if rng.once_in(3) {
        let dimension = rng.within(2, 3);
        let count = rng.within(dimension + 1, 6);
        let points = shapes::at_tolerance(rng, count, dimension, tolerance);
        return with_rows(rng, points);
    }
    let mut points = match rng.below(3) {
        0 => shapes::crowded(rng, 5, 2),
        1 => shapes::crowded(rng, 6, 3),
        _ => lattice_points(rng),
    };
    if rng.once_in(4) && points.len() < 20 {
        let twin = rng.pick(&points).clone();
        points.push(twin);
    }
    let size = tolerance * *rng.pick(&[0.01, 0.3, 1.0, 1.5, 3.0, 10.0]);
    let squeeze = *rng.pick(&[1.0, 1.0, 1e4 * tolerance, 10.0 * tolerance]);
    let points = shapes::nudged(rng, shapes::scaled(points, squeeze), size);
    with_rows(rng, points)
}

/// In space more often than in the plane, where two products can be added in
/// either order.
fn brink(rng: &mut Rng) -> Draft {
    wide(brink_job(rng, TOLERANCE))
}

fn brink_job(rng: &mut Rng, tolerance: f64) -> Job {
    let dimension = if rng.once_in(4) { 2 } else { 3 };
    let points = shapes::brink(rng, dimension, tolerance);
    with_rows(rng, points)
}

/// The tolerances that version 2 is tried at.
pub const TRIED: [f64; 4] = [1e-9, 1e-7, 1e-5, 1e-3];

fn tolerance(rng: &mut Rng) -> Draft {
    let tolerance = *rng.pick(&TRIED);
    let mut job = at_tolerance(rng, tolerance);
    if rng.once_in(4) {
        job.tolerance = damage::tolerance(rng);
    }
    wide(job)
}

/// A job of version 2 whose points lie near a border, or whose lengths near a limit.
pub fn at_tolerance(rng: &mut Rng, tolerance: f64) -> Job {
    let job = match rng.below(4) {
        0 | 1 => near_job(rng, tolerance),
        2 => brink_job(rng, tolerance),
        _ => limits_job(rng, tolerance),
    };
    Job {
        version: TOLERANCE_VERSION,
        tolerance,
        ..job
    }
}

/// A job of version 3, most of them under rule 2: points on few lines, in a plane or in
/// space, or any job of another kind.
fn rule(rng: &mut Rng) -> Draft {
    let mut job = match rng.below(6) {
        0 => near_job(rng, TOLERANCE),
        1 => limits_job(rng, TOLERANCE),
        _ => crowded_job(rng),
    };
    job.version = RULE_VERSION;
    job.rule = match rng.below(8) {
        0 => *rng.pick(&[0, 3, 255]),
        1 => 1,
        _ => 2,
    };
    if rng.once_in(32) {
        job.tolerance = damage::tolerance(rng);
    }
    wide(job)
}

fn crowded_job(rng: &mut Rng) -> Job {
    let dimension = rng.within(2, 3);
    let most = if dimension == 2 { 8 } else { 6 };
    let count = rng.within(4, most);
    let points = match rng.below(3) {
        0 => shapes::lattice(rng, count, dimension, 2),
        _ => shapes::crowded(rng, count, dimension),
    };
    with_rows(rng, points)
}

fn large(rng: &mut Rng) -> Draft {
    let dimension = rng.within(2, 3);
    let count = rng.within(dimension + 1, 6);
    let points = match rng.below(3) {
        0 => shapes::crowded(rng, count.max(4), dimension),
        _ => shapes::lattice(rng, count, dimension, 4),
    };
    let points = shapes::scaled(points, *rng.pick(&[21_845.0, 16_000.3, 1_000.7]));
    let size = *rng.pick(&[0.0, 1e-7, 1e-6, 1e-2]);
    let mut points = shapes::nudged(rng, points, size);
    for number in points.iter_mut().flatten() {
        *number = number.clamp(-65_536.0, 65_536.0);
    }
    wide(with_rows(rng, points))
}

/// Where shares of one facet in one ridge orbit can differ.
fn open_rows(rng: &mut Rng) -> Draft {
    let points = rng.within(4, 6);
    let side = rng.within(2, 3);
    let points = shapes::lattice(rng, points, 3, side);
    let n = points.len();
    let rows = symmetry::open_rows(rng, n, |rng| symmetry::permutation(rng, n));
    wide(Job {
        rows,
        budget: usual_budget(rng),
        ..Job::usual(4, points)
    })
}

/// A rank below d + 1, another offset, and a basis that may be skew or zero. Then
/// lengths are not those of the flattened points, which limits on them show.
fn plane(rng: &mut Rng) -> Draft {
    let rank = rng.within(3, 4);
    let dimension = rng.within(rank - 1, 4);
    let points = rng.within(rank, 6);
    let points = shapes::lattice(rng, points, dimension, 3);
    let rows = symmetry::some_rows(rng, &points);
    let mut job = Job {
        rows,
        budget: usual_budget(rng),
        ..Job::usual(rank as u8, points)
    };
    job.offset = (0..dimension).map(|_| rng.below(3) as f64 / 2.0).collect();
    job.basis = some_basis(rng, rank - 1, dimension);
    if rng.once_in(2) {
        limit_lengths(rng, &mut job, TOLERANCE);
    }
    wide(job)
}

fn some_basis(rng: &mut Rng, count: usize, dimension: usize) -> Vec<Vec<f64>> {
    let skew = |rng: &mut Rng| (0..dimension).map(|_| rng.signed()).collect();
    match rng.below(4) {
        0 => unit_vectors(count, dimension),
        1 => turned_basis(rng, count, dimension),
        2 => (0..count).map(|_| skew(rng)).collect(),
        _ => vec![vec![0.0; dimension]; count],
    }
}

/// Unit vectors in another order, two of them turned in their plane.
fn turned_basis(rng: &mut Rng, count: usize, dimension: usize) -> Vec<Vec<f64>> {
    let mut vectors = unit_vectors(dimension, dimension);
    rng.shuffle(&mut vectors);
    let (cosine, sine) = super::rng::turned(rng.unit());
    let turned = |a: &[f64], b: &[f64], sine: f64| {
        let pairs = a.iter().zip(b);
        pairs.map(|(a, b)| cosine * a + sine * b).collect()
    };
    let pair = [
        turned(&vectors[0], &vectors[1], sine),
        turned(&vectors[1], &vectors[0], -sine),
    ];
    vectors.splice(..2, pair);
    vectors.truncate(count);
    vectors
}

fn limits(rng: &mut Rng) -> Draft {
    wide(limits_job(rng, TOLERANCE))
}

fn limits_job(rng: &mut Rng, tolerance: f64) -> Job {
    let mut job = small_job(rng);
    if rng.once_in(3) {
        let points = lattice_points(rng);
        job = with_rows(rng, points);
    }
    limit_lengths(rng, &mut job, tolerance);
    if rng.once_in(2) {
        job.limit = Some(*rng.pick(&[0, 1, 2, 3, 5, 20, 1_024, u32::MAX]));
    }
    job
}

fn limit_lengths(rng: &mut Rng, job: &mut Job, tolerance: f64) {
    if rng.once_in(2) {
        job.min = Some(limit_length(rng, &job.points, tolerance));
    }
    if rng.once_in(2) {
        job.max = Some(limit_length(rng, &job.points, tolerance));
    }
}

/// The length of some edge, or a little beside it, around the tolerance.
fn limit_length(rng: &mut Rng, points: &Points, tolerance: f64) -> f64 {
    let (p, q) = (rng.pick(points), rng.pick(points));
    let squares = p.iter().zip(q).map(|(a, b)| (a - b) * (a - b));
    let beside = [0.0, 0.0, 0.5, 0.99, 1.0, 1.01, 2.0, 0.3 / tolerance];
    let beside = tolerance * *rng.pick(&beside);
    let sign = if rng.once_in(2) { -1.0 } else { 1.0 };
    (squares.sum::<f64>().sqrt() + sign * beside).max(0.0)
}

fn budget(rng: &mut Rng) -> Draft {
    let mut job = small_job(rng);
    let most = *rng.pick(&[2, 10, 40, 200]);
    job.budget = rng.below(most) as u32;
    if rng.once_in(8) {
        // No pair is short enough, so no list is ever due.
        (job.max, job.budget) = (Some(1e-3), 0);
    }
    wide(job)
}

fn pair(rng: &mut Rng) -> Draft {
    let dimension = rng.within(1, 4);
    let points = rng.within(2, 20);
    let points = match rng.below(2) {
        0 => shapes::crowded(rng, points.max(3), dimension),
        _ => shapes::lattice(rng, points.min(4), dimension, 4),
    };
    let n = points.len();
    let rows = match rng.below(3) {
        0 => vec![identity_row(n)],
        _ => symmetry::open_rows(rng, n, |rng| symmetry::permutation(rng, n)),
    };
    let mut draft = wide(Job {
        rows,
        ..Job::usual(2, points)
    });
    draft.workspace = *rng.pick(&[0, 0, 1, WORKSPACE]);
    draft.room = Room::Bytes(*rng.pick(&[0, 127, 128, 175, 176, 180]));
    draft
}

fn workspace(rng: &mut Rng) -> Draft {
    let job = small_job(rng);
    let asked = workspace_length(job.rank);
    let other = *rng.pick(&[0, 1, 524_287, 524_288, 524_289, 4_194_303, 4_194_305]);
    let mut draft = wide(job);
    draft.workspace = match rng.below(3) {
        0 => asked,
        1 => asked.saturating_sub(1),
        _ => other,
    };
    draft
}

fn room(rng: &mut Rng) -> Draft {
    let mut draft = wide(small_job(rng));
    draft.room = *rng.pick(&[
        Room::Fit(0),
        Room::Fit(-1),
        Room::Fit(-4),
        Room::Fit(1),
        Room::Fit(3),
        Room::Fit(64),
        Room::Bytes(0),
        Room::Bytes(3),
    ]);
    draft
}
