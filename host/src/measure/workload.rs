//! The jobs that are measured: known shapes with and without their symmetry, jobs
//! at the bounds, and families in which one size grows.

use faceting_register::job::identity_row;
use faceting_register::rows::closure;
use faceting_register::{Job, Package};

use crate::cases::generator::findings::{digits, ENTRIES, PLANES};
use crate::cases::generator::rng::Rng;
use crate::cases::generator::shapes::{self, Points};
use crate::cases::generator::symmetry::{isometries, permutation};
use faceting_register::bounds::MOST_ROWS;

/// A job with the name that its line has.
pub struct Workload {
    /// What its line is called.
    pub name: String,
    /// The job.
    pub job: Job,
}

fn workload(name: impl Into<String>, job: Job) -> Workload {
    Workload {
        name: name.into(),
        job,
    }
}

fn plain(points: Points) -> Job {
    let rank = points.first().map_or(2, |point| point.len() + 1).min(4);
    Job::usual(rank as u8, points)
}

fn symmetric(points: Points) -> Job {
    let rows = isometries(&points, MOST_ROWS);
    Job {
        rows,
        ..plain(points)
    }
}

fn limited(job: Job, limit: u32) -> Job {
    Job {
        limit: Some(limit),
        ..job
    }
}

fn square() -> Points {
    [[0.0, 0.0], [1.0, 0.0], [1.0, 1.0], [0.0, 1.0]]
        .map(Vec::from)
        .into()
}

/// Points with whole coordinates, as they were found.
fn found(set: &'static str) -> Points {
    let point = |digits: Vec<u8>| digits.into_iter().map(f64::from).collect();
    digits(set).map(point).collect()
}

/// The cube's corners in a space of four dimensions, its own one turned in it: the
/// basis stands askew, so that points and flattened points differ.
fn cube_in_four() -> Job {
    let half = 0.5;
    let basis = [
        [half, half, half, half],
        [half, half, -half, -half],
        [half, -half, half, -half],
    ];
    let place = |point: Vec<f64>| {
        let number = |axis: usize| (0..3).map(|k| point[k] * basis[k][axis]).sum();
        (0..4).map(number).collect()
    };
    let points: Points = shapes::cube().into_iter().map(place).collect();
    Job {
        rows: isometries(&points, MOST_ROWS),
        basis: basis.map(Vec::from).into(),
        ..Job::usual(4, points)
    }
}

/// A heptagon and an apex: as many possible facets as there may be.
fn most_facets() -> Job {
    let mut points = shapes::moment_curve(7, 2);
    points.iter_mut().for_each(|point| point.push(0.0));
    points.push(vec![2.0, 7.0, 1.0]);
    limited(plain(points), 1_003)
}

fn most_entries() -> Job {
    let (_, square, set) = ENTRIES[1];
    Job {
        max: Some(f64::from(square).sqrt()),
        ..plain(found(set))
    }
}

/// The table's rows. Each is accepted.
pub fn table() -> Vec<Workload> {
    vec![
        workload("square, 8 rows", symmetric(square())),
        workload("square", plain(square())),
        workload("hexagon, 12 rows", symmetric(shapes::polygon(6))),
        workload("hexagon", plain(shapes::polygon(6))),
        workload("parabola of 6", plain(shapes::moment_curve(6, 2))),
        workload("cube, 48 rows", symmetric(shapes::cube())),
        workload("cube, limit 20", limited(plain(shapes::cube()), 20)),
        workload("icosahedron, 120 rows", symmetric(shapes::icosahedron())),
        workload(
            "icosahedron, limit 1",
            limited(plain(shapes::icosahedron()), 1),
        ),
        workload("cube in d = 4, 48 rows", cube_in_four()),
        workload(
            "dodecahedron, 20 points, 120 rows",
            symmetric(shapes::dodecahedron()),
        ),
        workload(
            "20 points, polygon, limit 1,000",
            limited(plain(shapes::polygon(20)), 1_000),
        ),
        workload("1,024 facets", most_facets()),
        workload("256 orbits, limit 1", limited(plain(found(PLANES[1].1)), 1)),
        workload("1,024 entries", most_entries()),
        workload(
            "moment curve of 7, rank 4, limit 1,024",
            limited(plain(shapes::moment_curve(7, 3)), 1_024),
        ),
    ]
}

/// A job and a package with the name that their line has.
pub struct NobleWorkload {
    /// What its line is called.
    pub name: &'static str,
    /// The job.
    pub job: Job,
    /// The package.
    pub package: Package,
}

/// A full set of 20 points that begins with the job's, and any 120 full rows of it.
fn wide_package(points: usize, count: u16, rows: Vec<Vec<u8>>) -> Package {
    Package {
        points: 20,
        count,
        global: identity_row(points),
        rows,
    }
}

/// The group of all permutations of the last five of 20 points.
fn last_five() -> Vec<Vec<u8>> {
    let swap = |v: usize| {
        let mut row = identity_row(20);
        row.swap(v, v + 1);
        row
    };
    closure(20, &[15, 16, 17, 18].map(swap), MOST_ROWS)
}

/// The identity and any 119 permutations.
fn any_rows() -> Vec<Vec<u8>> {
    let mut rng = Rng::new(2);
    let rows = (0..MOST_ROWS).map(|row| match row {
        0 => identity_row(20),
        _ => permutation(&mut rng, 20),
    });
    rows.collect()
}

/// As many orbits and full rows as there may be, with every orbit dropped, so that orbits
/// and tallies are all that takes time; and the parabola with a package that keeps all.
pub fn nobles() -> Vec<NobleWorkload> {
    let planes = || plain(found(PLANES[1].1));
    let parabola = plain(shapes::moment_curve(6, 2));
    let job = |name, job: Job, count, rows| NobleWorkload {
        name,
        package: wide_package(job.points.len(), count, rows),
        job,
    };
    vec![
        job(
            "256 orbits, each with a tally, 120 full rows",
            planes(),
            1,
            last_five(),
        ),
        job("256 orbits, any 120 full rows", planes(), 1, any_rows()),
        job(
            "256 orbits, 1 full row",
            planes(),
            1,
            vec![identity_row(20)],
        ),
        job(
            "parabola of 6, the identity as full row",
            parabola,
            2,
            vec![identity_row(20)],
        ),
    ]
}

/// Parabolas: 10 to 190 orbits of rank 3; the budget is the number of lists.
pub fn parabolas(budget: u32) -> Vec<Workload> {
    let job = |n: usize| Job {
        budget,
        ..plain(shapes::moment_curve(n, 2))
    };
    (5..=20)
        .map(|n| workload(format!("{n} points, {} orbits", n * (n - 1) / 2), job(n)))
        .collect()
}

/// One parabola with growing budgets.
pub fn budgets() -> Vec<Workload> {
    let job = |budget| Job {
        budget,
        ..plain(shapes::moment_curve(14, 2))
    };
    [100, 1_000, 10_000, 100_000]
        .map(|budget| workload(format!("budget {budget}"), job(budget)))
        .into()
}

/// One job with its only row again and again, so that nothing else grows.
pub fn rows() -> Vec<Workload> {
    let job = |rows: usize| Job {
        rows: vec![identity_row(8); rows],
        ..limited(plain(shapes::cube()), 1)
    };
    [1, 2, 5, 10, 30, 60, 120]
        .map(|rows| workload(format!("{rows} rows"), job(rows)))
        .into()
}

/// Points of space in general position: every three have a plane of their own.
pub fn planes() -> Vec<Workload> {
    let job = |n: usize| Job {
        budget: 20_000,
        ..limited(plain(shapes::moment_curve(n, 3)), 1)
    };
    (4..=12)
        .map(|n| {
            workload(
                format!("{n} points, {} orbits", n * (n - 1) * (n - 2) / 6),
                job(n),
            )
        })
        .collect()
}
