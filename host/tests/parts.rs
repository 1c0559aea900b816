//! What is measured of figures, held to values that are known from geometry: the angles
//! of the Platonic solids, the four Kepler-Poinsot polyhedra among the entries with
//! their counts, and what stays the same when a set is turned, mirrored or scaled.

mod common;

use std::collections::BTreeMap;
use std::path::Path;

use faceting_register::{answer, Answer, Job};
use facetings_host::format::vertex_set;
use facetings_host::parts::joints::Joint;
use facetings_host::parts::names::words;
use facetings_host::parts::wholes::Whole;
use facetings_host::parts::Parts;
use facetings_host::report::look::looks;
use facetings_host::report::parts::entry_words;

use common::ways::ways;

fn example(name: &str) -> Job {
    let file = Path::new(env!("CARGO_MANIFEST_DIR")).join(format!("../examples/{name}"));
    let bytes = std::fs::read(file).expect("the example is there");
    let mut sets = vertex_set::read(name, &bytes);
    sets.remove(0).read_job().expect("the example is a job")
}

/// The answer of whichever engine is there, and its parts.
fn measured(job: &Job) -> Option<(Answer, Parts)> {
    let mut way = ways().pop()?;
    let found = answer(way.engine.as_mut(), job).expect("the example is answered");
    let parts = Parts::of(job, &found);
    Some((found, parts))
}

/// An entry in words: each kind of part with its count, then each kind of joint.
fn kinds(parts: &Parts, entry: usize) -> Vec<(usize, String)> {
    let named = |&(shape, count): &(usize, usize)| {
        let facet = &parts.shapes.facets[parts.shapes.firsts[shape]];
        let name = words(facet, &parts.shapes);
        (count, name.split(',').next().unwrap_or("").to_string())
    };
    parts.entries[entry].counts.iter().map(named).collect()
}

/// The only joints of an entry, as their number and angle.
fn only_joints(joints: &[Joint]) -> (usize, f64) {
    let [joint] = joints else {
        panic!("{joints:?}")
    };
    (joint.count, joint.angle.expect("an angle"))
}

/// Finds the figure with these parts alone, and its joints with this angle.
fn find(name: &str, solid: &str, wanted: &[(usize, &str)], edges: usize, angle: f64) {
    let Some((found, parts)) = measured(&example(name)) else {
        return;
    };
    let wanted: Vec<(usize, String)> = wanted.iter().map(|&(n, s)| (n, s.into())).collect();
    let is_it = |&e: &usize| {
        let size = found.summaries[e];
        kinds(&parts, e) == wanted && size[1] as usize == edges
    };
    let joints = |e: usize| only_joints(&parts.entries[e].joints);
    let fits = |e: &usize| (joints(*e).1 - angle.to_degrees()).abs() < 1e-9;
    let there: Vec<usize> = (0..found.entries.len())
        .filter(is_it)
        .filter(fits)
        .collect();
    let [e] = there[..] else {
        panic!("{solid} is at {there:?} in {name}")
    };
    assert_eq!(joints(e).0, edges, "{solid}");
    assert!(parts.entries[e].loose.is_empty(), "{solid}");
}

#[test]
fn the_platonic_solids_have_their_angles() {
    let third = 1.0_f64 / 3.0;
    find(
        "tetrahedron.txt",
        "tetrahedron",
        &[(4, "triangle")],
        6,
        third.acos(),
    );
    find("cube.txt", "cube", &[(6, "square")], 12, 0.0_f64.acos());
    find(
        "octahedron.txt",
        "octahedron",
        &[(8, "triangle")],
        12,
        (-third).acos(),
    );
    let fifth = 1.0 / 5_f64.sqrt();
    find(
        "dodecahedron.txt",
        "dodecahedron",
        &[(12, "pentagon")],
        30,
        (-fifth).acos(),
    );
    let angle = (-(5_f64.sqrt()) / 3.0).acos();
    find(
        "icosahedron.txt",
        "icosahedron",
        &[(20, "triangle")],
        30,
        angle,
    );
}

/// Lengths and angles are taken in the flat that the set is seen in.
#[test]
fn an_octahedron_in_four_coordinates_has_its_angle() {
    let angle = (-1.0_f64 / 3.0).acos();
    find(
        "octahedron-4d.txt",
        "octahedron",
        &[(8, "triangle")],
        12,
        angle,
    );
}

/// Three on the icosahedron's vertices, one on the dodecahedron's.
#[test]
fn the_four_kepler_poinsot_polyhedra_are_there() {
    let fifth = 1.0 / 5_f64.sqrt();
    let [ico, dodeca] = ["icosahedron.txt", "dodecahedron.txt"];
    find(
        ico,
        "small stellated dodecahedron",
        &[(12, "pentagram")],
        30,
        (-fifth).acos(),
    );
    find(
        ico,
        "great dodecahedron",
        &[(12, "pentagon")],
        30,
        fifth.acos(),
    );
    find(
        ico,
        "great icosahedron",
        &[(20, "triangle")],
        30,
        (5_f64.sqrt() / 3.0).acos(),
    );
    find(
        dodeca,
        "great stellated dodecahedron",
        &[(12, "pentagram")],
        30,
        fifth.acos(),
    );
}

#[test]
fn the_cuboctahedron_and_two_more_on_its_points_have_their_angles() {
    let cubocta = "cuboctahedron.txt";
    let (third, half) = (1.0_f64 / 3.0, 1.0 / 3_f64.sqrt());
    let triangles = (8, "triangle");
    find(
        cubocta,
        "cuboctahedron",
        &[triangles, (6, "square")],
        24,
        (-half).acos(),
    );
    find(
        cubocta,
        "octahemioctahedron",
        &[triangles, (4, "hexagon")],
        24,
        third.acos(),
    );
    find(
        cubocta,
        "cubohemioctahedron",
        &[(4, "hexagon"), (6, "square")],
        24,
        half.acos(),
    );
}

#[test]
fn the_three_figures_of_the_cube_in_words() {
    let Some((_, parts)) = measured(&example("cube.txt")) else {
        return;
    };
    let told: Vec<String> = parts
        .entries
        .iter()
        .map(|e| entry_words(&parts, e, 4))
        .collect();
    let cube = "12 joints, angle 90.00° A–A";
    let pair = "12 joints, angle 70.53° B–B";
    let (square, triangle) = ("6 × A square, side 2.0000", "8 × B triangle, side 2.8284");
    let wanted = [
        format!("{square}; {cube}"),
        format!("{square}; {triangle}; {cube}; {pair}"),
        format!("{triangle}; {pair}"),
    ];
    assert_eq!(told, wanted);
}

#[test]
fn polygons_have_the_angles_of_stars_at_their_corners() {
    let corners = |name: &str| -> Vec<f64> {
        let Some((_, parts)) = measured(&example(name)) else {
            return Vec::new();
        };
        parts
            .entries
            .iter()
            .map(|e| only_joints(&e.joints).1)
            .collect()
    };
    for (name, wanted) in [
        ("pentagon.txt", vec![108.0, 36.0]),
        ("heptagon.txt", vec![900.0 / 7.0, 540.0 / 7.0, 180.0 / 7.0]),
    ] {
        for (found, wanted) in corners(name).iter().zip(wanted) {
            assert!((found - wanted).abs() < 1e-9, "{name}: {found}");
        }
    }
}

/// A hexagram is one facet where the symmetries hold its two triangles together.
#[test]
fn a_facet_that_falls_apart_is_two_triangles() {
    let Some((_, parts)) = measured(&example("cuboctahedron.txt")) else {
        return;
    };
    let hexagram = &parts.shapes.facets[parts.possible[2][1]];
    assert_eq!(hexagram.polygons().len(), 2);
    let name = words(hexagram, &parts.shapes);
    assert_eq!(name, format!("two triangles, side {:.4}", 6_f64.sqrt()));
}

/// The entries that have these parts alone, and so many edges.
fn with_parts(found: &Answer, parts: &Parts, wanted: &[(usize, &str)], edges: u32) -> Vec<usize> {
    let wanted: Vec<(usize, String)> = wanted.iter().map(|&(n, s)| (n, s.into())).collect();
    let is_it = |&e: &usize| kinds(parts, e) == wanted && found.summaries[e][1] == edges;
    (0..found.entries.len()).filter(is_it).collect()
}

/// How many compound facets an entry has, and how many parts of which sides each.
fn compounds(parts: &Parts, entry: usize) -> Vec<(usize, Vec<(usize, f64)>)> {
    let side = |&(shape, count): &(usize, usize)| {
        let facet = &parts.shapes.facets[parts.shapes.firsts[shape]];
        (count, facet.polygons()[0].sides[0])
    };
    let whole = |whole: &Whole| (whole.count, whole.parts.iter().map(side).collect());
    parts.entries[entry].wholes.iter().map(whole).collect()
}

/// 20 points, 60 edges, 40 triangles in 20 planes, two in each: by turns alone the two
/// are facets by themselves, and their compound is split; mirrors hold them together.
#[test]
fn the_compound_of_ten_tetrahedra_has_two_triangles_in_each_of_its_planes() {
    let Some((found, parts)) = measured(&example("dodecahedron-turns.txt")) else {
        return;
    };
    let [e] = with_parts(&found, &parts, &[(40, "triangle")], 60)[..] else {
        panic!("it is listed once")
    };
    let angle = (1.0_f64 / 3.0).acos().to_degrees();
    let (joints, joined) = only_joints(&parts.entries[e].joints);
    assert!(joints == 60 && (joined - angle).abs() < 1e-9);
    assert_eq!(looks(&found)[e].pieces, 10);
    let [(20, two)] = &compounds(&parts, e)[..] else {
        panic!("20 facets are compounds")
    };
    let side = 8_f64.sqrt();
    assert!(matches!(two[..], [(2, found)] if (found - side).abs() < 1e-9));
    let whole = parts.entries[e].wholes[0].shape;
    assert!(whole >= parts.used && whole < parts.told);
    let facet = &parts.shapes.facets[parts.shapes.firsts[whole]];
    assert_eq!(words(facet, &parts.shapes), "two triangles, side 2.8284");
    let told = entry_words(&parts, &parts.entries[e], 4);
    let of_these = "; of these 20 × P compound of 2 × C triangle, side 2.8284; 60 joints";
    assert!(told.contains(of_these), "{told}");

    let (found, parts) = measured(&example("dodecahedron.txt")).expect("an engine");
    let [e] = with_parts(&found, &parts, &[(20, "two triangles")], 60)[..] else {
        panic!("it is listed once")
    };
    assert!(compounds(&parts, e).is_empty());
    assert_eq!(parts.told, parts.used);
}

/// The faces of the two tetrahedra in a cube have the octahedron of the cube's face
/// centres in their planes: a triangle with that of the middles of its sides.
#[test]
fn two_tetrahedra_and_their_octahedron_lie_in_eight_planes() {
    let Some((found, parts)) = measured(&example("cube-face-centres.txt")) else {
        return;
    };
    let triangles = [(8, "triangle"), (8, "triangle")];
    let [e] = with_parts(&found, &parts, &triangles, 24)[..] else {
        panic!("it is listed once")
    };
    let joints = &parts.entries[e].joints;
    let third = 1.0_f64 / 3.0;
    let wanted = [third, -third].map(|cosine| cosine.acos().to_degrees());
    for (joint, angle) in joints.iter().zip(wanted) {
        let measured = joint.angle.expect("an angle");
        assert!(joint.count == 12 && (measured - angle).abs() < 1e-9);
    }
    let [(8, both)] = &compounds(&parts, e)[..] else {
        panic!("8 facets are compounds")
    };
    let [(1, large), (1, small)] = both[..] else {
        panic!("of two triangles that differ")
    };
    assert!((large - 8_f64.sqrt()).abs() < 1e-9 && (small - 2_f64.sqrt()).abs() < 1e-9);
}

/// A hexagonal prism, by the turns and mirrors of a triangular one that has every other
/// corner: its two triangular prisms together, with a hexagram at either end.
#[test]
fn two_triangular_prisms_have_a_hexagram_at_either_end() {
    let corner = |k: usize, height: usize| {
        let turn = std::f64::consts::TAU * k as f64 / 6.0;
        format!("{:.17} {:.17} {height}\n", turn.cos(), turn.sin())
    };
    let points: String = (0..12).map(|v| corner(v % 6, v / 6)).collect();
    let row = |to: fn(usize) -> usize, swap: usize| {
        let image = |v: usize| to(v % 6) % 6 + 6 * ((v / 6 + swap) % 2);
        let row: Vec<String> = (0..12).map(|v| image(v).to_string()).collect();
        row.join(" ") + "\n"
    };
    let rows = row(|k| k + 2, 0) + &row(|k| 6 - k, 0) + &row(|k| k, 1);
    let text = format!("points\n{points}generators\n{rows}");
    let job = vertex_set::read("prism.txt", text.as_bytes())
        .remove(0)
        .read_job()
        .expect("a job");
    let Some((found, parts)) = measured(&job) else {
        return;
    };
    let both = [(6, "rectangle"), (4, "triangle")];
    let listed = with_parts(&found, &parts, &both, 18);
    let [e] = listed[..] else {
        panic!("it is listed once, not at {listed:?}")
    };
    assert_eq!(looks(&found)[e].pieces, 2);
    assert!(found.compounds.iter().any(|triple| triple[0] as usize == e));
    let [(2, two)] = &compounds(&parts, e)[..] else {
        panic!("either end is a compound")
    };
    assert!(matches!(two[..], [(2, side)] if (side - 3_f64.sqrt()).abs() < 1e-9));
}

/// Parts of compound facets are facets of the figure, as often as it has them.
#[test]
fn compound_facets_take_no_more_parts_than_there_are() {
    for name in ["dodecahedron-turns.txt", "cube-face-centres.txt"] {
        let Some((found, parts)) = measured(&example(name)) else {
            return;
        };
        let mut seen = 0;
        for (entry, listed) in parts.entries.iter().zip(&found.entries) {
            assert_eq!(entry.wholes.is_empty(), listed.before == listed.list);
            let mut left: BTreeMap<usize, usize> = entry.counts.iter().copied().collect();
            for whole in &entry.wholes {
                seen += whole.count;
                for (shape, count) in &whole.parts {
                    let there = left.get_mut(shape).expect("the figure has the shape");
                    *there = there
                        .checked_sub(whole.count * count)
                        .expect("so many facets");
                }
            }
        }
        assert!(seen > 0, "{name}");
    }
}

/// A row that is no symmetry carries a square to what lies in no plane: it is counted,
/// and nothing is measured of it.
#[test]
fn what_lies_in_no_plane_is_not_measured() {
    let Some((_, parts)) = measured(&example("corner-flap.txt")) else {
        return;
    };
    let told = entry_words(&parts, &parts.entries[4], 4);
    let skew = "1 × C 4 edges that make up no plane polygon";
    assert!(told.contains(skew), "{told}");
    assert!(told.contains("joints without one angle C"), "{told}");
    assert!(!told.contains("1.0000 1.0000 1.0000"), "{told}");
}

/// Each facet is a part and each edge of a figure that closes a joint.
#[test]
fn parts_and_joints_are_as_many_as_facets_and_edges() {
    for name in [
        "dodecahedron.txt",
        "cuboctahedron.txt",
        "corner-flap.txt",
        "grid-3x3.txt",
        "segment.txt",
    ] {
        let job = example(name);
        let Some((found, parts)) = measured(&job) else {
            return;
        };
        for (entry, [_, edges, facets]) in parts.entries.iter().zip(&found.summaries) {
            let all: usize = entry.counts.iter().map(|(_, count)| count).sum();
            assert_eq!(all, *facets as usize, "{name}");
            let joints: usize = entry.joints.iter().map(|joint| joint.count).sum();
            let loose: usize = entry.loose.iter().map(|loose| loose.count).sum();
            match job.rank {
                4 => assert_eq!(joints + loose, *edges as usize, "{name}"),
                2 => assert_eq!(joints + loose, 0, "{name}"),
                _ => assert!(joints + loose <= job.points.len(), "{name}"),
            }
        }
    }
}

/// Turned, mirrored and moved, a set has the same parts; twice as large, lengths are
/// twice as long.
#[test]
fn a_motion_changes_no_part_and_a_scale_only_lengths() {
    let job = example("cuboctahedron.txt");
    let Some((_, before)) = measured(&job) else {
        return;
    };
    let words = |parts: &Parts| -> Vec<String> {
        parts
            .entries
            .iter()
            .map(|e| entry_words(parts, e, 4))
            .collect()
    };
    let (c, s) = (0.3_f64.cos(), 0.3_f64.sin());
    let moved = |scale: f64| Job {
        points: (job.points.iter())
            .map(|p| {
                vec![
                    scale * (c * p[0] - s * p[2]) + 2.0,
                    -scale * p[1],
                    scale * (s * p[0] + c * p[2]),
                ]
            })
            .collect(),
        ..job.clone()
    };
    let (_, after) = measured(&moved(1.0)).expect("the engine is there");
    assert_eq!(words(&before), words(&after));
    let (_, larger) = measured(&moved(2.0)).expect("the engine is there");
    let shape = &larger.shapes.facets[larger.shapes.firsts[0]];
    let first = &before.shapes.facets[before.shapes.firsts[0]];
    let side = |facet: &facetings_host::parts::facet::Facet| facet.polygons()[0].sides[0];
    assert!((side(shape) - 2.0 * side(first)).abs() < 1e-9);
}
