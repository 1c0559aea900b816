//! The symmetries that the host finds: of known sets, of sets with very many, and
//! of the examples, whose rows were written by hand.

mod common;

use std::collections::BTreeSet;
use std::path::Path;
use std::time::{Duration, Instant};

use common::{job, SQUARE, SQUARE_GROUP};
use faceting_register::job::{is_permutation, Job};
use facetings_host::symmetry::{comparison, report, Kind, Symmetry};

fn read(text: &str) -> Job {
    Job::read(&job(text)).expect("the text form writes the layout")
}

fn symmetry(text: &str) -> Symmetry {
    Symmetry::of(&read(text)).expect("the points are looked at")
}

/// How many symmetries there are, and how many turns.
fn orders(text: &str) -> (u64, u64) {
    let symmetry = symmetry(text);
    let order = |kind| symmetry.group(kind).order;
    (order(Kind::Full), order(Kind::Turns))
}

fn example(name: &str) -> String {
    let folder = Path::new(env!("CARGO_MANIFEST_DIR")).join("../examples");
    let place = folder.join(format!("{name}.txt"));
    std::fs::read_to_string(&place).unwrap_or_else(|error| panic!("{place:?}: {error}"))
}

fn lines(points: impl IntoIterator<Item = String>) -> String {
    let points: Vec<String> = points.into_iter().collect();
    format!("points\n{}\n", points.join("\n"))
}

#[test]
fn known_sets_have_their_known_symmetries() {
    let known = [
        ("square", (8, 4)),
        ("hexagon", (12, 6)),
        ("segment", (2, 1)),
        ("parabola", (1, 1)),
        ("tetrahedron", (24, 12)),
        ("cube", (48, 24)),
        ("octahedron", (48, 24)),
        ("cuboctahedron", (48, 24)),
        ("icosahedron", (120, 60)),
        ("dodecahedron", (120, 60)),
        ("prism-5", (20, 10)),
        ("antiprism-4", (16, 8)),
        ("pyramid", (8, 4)),
    ];
    for (name, expected) in known {
        assert_eq!(orders(&example(name)), expected, "{name}");
    }
}

#[test]
fn a_set_without_symmetry_has_the_identity_alone() {
    let text = "points\n0 0\n1 0\n0 3\n";
    assert_eq!(orders(text), (1, 1));
    let rows = symmetry(text).group(Kind::Full).rows();
    assert_eq!(rows, Some(vec![vec![0, 1, 2]]));
    assert!(report("a", &symmetry(text)).contains("no symmetry but staying"));
}

/// Held to trying every permutation, on small sets of whole numbers.
#[test]
fn exactly_the_permutations_that_keep_all_distances_are_found() {
    let mut seed = 1_u64;
    let mut next = |most: u64| {
        seed = seed.wrapping_mul(6_364_136_223_846_793_005).wrapping_add(1);
        (seed >> 33) % most
    };
    let mut met = BTreeSet::new();
    for _ in 0..300 {
        let (count, d) = (2 + next(5), 1 + next(3));
        let point = |next: &mut dyn FnMut(u64) -> u64| {
            let coordinates: Vec<String> = (0..d).map(|_| next(3).to_string()).collect();
            coordinates.join(" ")
        };
        let text = lines((0..count).map(|_| point(&mut next)));
        let job = read(&text);
        let expected = all_that_keep(&job);
        met.insert(expected.len());
        let group = symmetry(&text).group(Kind::Full);
        assert_eq!(group.order, expected.len() as u64, "{text}");
        if let Some(rows) = group.rows() {
            assert_eq!(
                rows.into_iter().collect::<BTreeSet<_>>(),
                expected,
                "{text}"
            );
        }
    }
    assert!(met.len() >= 8, "{met:?}");
}

/// Every permutation that keeps each squared distance of whole numbers.
fn all_that_keep(job: &Job) -> BTreeSet<Vec<u8>> {
    let n = job.points.len();
    let square = |v: usize, w: usize| {
        let pairs = job.points[v].iter().zip(&job.points[w]);
        pairs.map(|(x, y)| (x - y) * (x - y)).sum::<f64>()
    };
    let kept = |row: &[u8]| {
        let image = |v: usize| usize::from(row[v]);
        (0..n).all(|v| (0..n).all(|w| square(v, w) == square(image(v), image(w))))
    };
    let rows = (0..n.pow(n as u32)).map(|code| {
        let digit = |place: usize| (code / n.pow(place as u32) % n) as u8;
        (0..n).map(digit).collect::<Vec<u8>>()
    });
    rows.filter(|row| is_permutation(row) && kept(row))
        .collect()
}

#[test]
fn the_rows_are_a_group_with_the_identity_first_and_few_generators_make_it() {
    for (name, order) in [("cube", 48), ("icosahedron", 120), ("hexagon", 12)] {
        for (kind, order) in [(Kind::Full, order), (Kind::Turns, order / 2)] {
            let mut job = read(&example(name));
            let group = symmetry(&example(name)).group(kind);
            let few = group.few_generators();
            assert!(few.len() <= 4, "{name}: {few:?}");
            job.rows = group.rows().expect("a job can have so many");
            assert_eq!(job.rows.len(), order, "{name}");
            assert!(job.rows_closed(), "{name}");
            assert!(job.rows[0].is_sorted());
        }
    }
}

/// A turn has determinant 1: worked out here by itself for the cube, whose points
/// are signs, from the images of three edges at a corner.
#[test]
fn turns_are_those_of_determinant_one() {
    let job = read(&example("cube"));
    let rows = symmetry(&example("cube")).group(Kind::Turns).rows();
    let edge = |row: &[u8], v: usize| -> Vec<f64> {
        let (from, to) = (
            &job.points[usize::from(row[0])],
            &job.points[usize::from(row[v])],
        );
        from.iter().zip(to).map(|(x, y)| (y - x) / 2.0).collect()
    };
    for row in rows.expect("a job can have so many") {
        let [a, b, c] = [1, 2, 4].map(|v| edge(&row, v));
        let cross = |i: usize, j: usize| b[i] * c[j] - b[j] * c[i];
        let volume = a[0] * cross(1, 2) + a[1] * cross(2, 0) + a[2] * cross(0, 1);
        assert_eq!(volume, 1.0, "{row:?}");
    }
}

#[test]
fn a_flat_set_is_looked_at_in_its_own_plane() {
    let tilted = "rank 4\npoints\n0 0 0\n1 0 1\n1 1 1\n0 1 0\n";
    assert_eq!(orders(tilted), (4, 2));
    assert_eq!(
        orders("rank 4\npoints\n0 0 5\n1 0 5\n1 1 5\n0 1 5\n"),
        (8, 4)
    );
    assert_eq!(orders("rank 4\npoints\n0 0 0\n1 1 1\n2 2 2\n"), (2, 1));
}

#[test]
fn what_the_register_projects_away_counts_only_where_lengths_do() {
    let text = "rank 3\npoints\n0 0 0\n1 0 5\n1 1 0\n0 1 0\n";
    assert_eq!(orders(text), (8, 4));
    assert_eq!(orders(&format!("{text}max 9\n")), (2, 1));
}

#[test]
fn rounded_coordinates_keep_their_symmetry_and_moved_points_do_not() {
    let golden = "1.61803399";
    let text = example("icosahedron").replace("(1+sqrt(5))/2", golden);
    assert_eq!(orders(&text), (120, 60));
    assert_eq!(orders("points\n0 0\n1 0\n1 1\n0 1.0001\n"), (1, 1));
    assert_eq!(orders("points\n0 0\n1000 0\n0 1\n0 -1.00001\n"), (1, 1));
    assert_eq!(orders("points\n0 0\n0.000001 0\n0 0.000002\n"), (1, 1));
}

/// Points that all coincide, and clusters of them that look alike up to the last
/// point, would keep a search busy for ever that tried them one by one.
#[test]
fn very_many_symmetries_are_counted_at_once() {
    let begun = Instant::now();
    let same = lines((0..20).map(|_| "1 1".into()));
    let factorial = |n: u64| (1..=n).product::<u64>();
    assert_eq!(orders(&same), (factorial(20), factorial(20)));
    let clusters = |ends: &str| {
        let cluster = |x: &str| vec![format!("{x} 0"); 9];
        let mut points = cluster("0");
        points.extend(cluster("1"));
        lines(points.into_iter().chain([ends.into(), "0.5 1".into()]))
    };
    let each = factorial(9) * factorial(9);
    assert_eq!(orders(&clusters("0.5 1")).0, each * 4);
    assert_eq!(orders(&clusters("0.5 -1.1")).0, each * 2);
    assert_eq!(orders(&clusters("0.6 -1")).0, each);
    let words = symmetry(&same).too_many();
    assert!(words.contains("2432902008176640000 symmetries"), "{words}");
    assert!(
        words.contains("the 120 turns that keep points 0 to 14"),
        "{words}"
    );
    assert!(symmetry(&same).group(Kind::Full).rows().is_none());
    assert!(begun.elapsed() < Duration::from_secs(60));
}

/// Sets of four dimensions have more turns than a job has rows; the rank that would
/// take them is the register's to refuse.
#[test]
fn a_part_of_too_many_turns_is_offered() {
    let cell = |vertices: &[[i32; 4]]| {
        let words = |point: &[i32; 4]| point.map(|x| x.to_string()).join(" ");
        format!("rank 5\n{}", lines(vertices.iter().map(words)))
    };
    let axes: Vec<[i32; 4]> = (0..8)
        .map(|v| {
            std::array::from_fn(|i| {
                if i == v / 2 {
                    1 - 2 * (v as i32 % 2)
                } else {
                    0
                }
            })
        })
        .collect();
    let corners: Vec<[i32; 4]> = (0..16)
        .map(|v| std::array::from_fn(|i| 1 - 2 * (v >> i & 1)))
        .collect();
    for (text, kept) in [(cell(&axes), 24), (cell(&corners), 12)] {
        assert_eq!(orders(&text), (384, 192));
        let (fixed, group) = symmetry(&text).fitting_turns();
        assert_eq!((fixed, group.order), (1, kept));
        let rows = group.rows().expect("a job can have so many");
        assert_eq!(rows.len() as u64, kept);
        assert!(rows.iter().all(|row| row[0] == 0));
        let words = format!("the {kept} turns that keep point 0 in its place");
        assert!(symmetry(&text).too_many().ends_with(&words));
    }
    let simplex = "rank 5\npoints\n1 0 0 0\n0 1 0 0\n0 0 1 0\n0 0 0 1\n(1+sqrt(5))/4 (1+sqrt(5))/4 (1+sqrt(5))/4 (1+sqrt(5))/4\n";
    assert_eq!(orders(simplex), (120, 60));
}

#[test]
fn no_points_that_are_refused_are_looked_at() {
    for points in ["1 1", "1 1\n2 0x7ff0000000000000"] {
        let job = read(&format!("points\n{points}\n"));
        assert!(Symmetry::of(&job).is_none());
    }
    assert!(Symmetry::of(&read(&lines((0..21).map(|i| format!("{i} 0"))))).is_none());
}

#[test]
fn rows_are_compared_with_what_is_found() {
    let note = |text: &str| comparison(&read(text)).and_then(|found| found.note());
    let words = |text: &str| note(text).expect("a note").0;
    assert_eq!(note(SQUARE), None);
    assert_eq!(note(&format!("{SQUARE}{SQUARE_GROUP}")), None);
    assert_eq!(note(&format!("{SQUARE}generators\n1 2 3 0\n")), None);
    assert_eq!(
        words(&format!("{SQUARE}generators\n2 3 0 1\n")),
        "the rows are 2 of the symmetries of the points, which have 8 symmetries, 4 of them turns"
    );
    assert_eq!(
        words(&format!("{SQUARE}generators\n1 3 2 0\n")),
        "2 of the 3 rows are no symmetries of the points, which have 8 symmetries, 4 of them turns"
    );
    assert_eq!(
        words("points\n0 0\n1 0\n0 3\nrows\n0 1 2\n1 0 2\n"),
        "1 of the 2 rows is no symmetry of the points, which have none but the identity"
    );
}
