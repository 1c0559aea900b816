//! Cuts the original functions out of the published Rust source, patches them
//! and writes them to OUT_DIR, where `src/engines/original` includes them.
//!
//! The proved square root is linked where `./library root` has written it; the
//! register itself is linked by the crate in `wrapper`.
//!
//! The source is looked for where the variable MIRATOPE_SRC points, else in
//! `../shared/docs/src` beside the repository. Without it the crate builds with
//! everything but the original: `cfg(has_miratope)` is then not set.

use std::path::{Path, PathBuf};
use std::{env, fs};

const FACETING: &str = "miratope-core/src/conc/faceting.rs";
const GEOMETRY: &str = "miratope-core/src/geometry.rs";

/// A replacement in one cut piece, which must apply exactly `times` times.
struct Patch {
    find: &'static str,
    put: &'static str,
    times: usize,
}

/// A piece of the source: from its first line to the brace that matches.
struct Piece {
    first_line: &'static str,
    patches: &'static [Patch],
}

const fn whole(first_line: &'static str) -> Piece {
    Piece {
        first_line,
        patches: &[],
    }
}

/// The methods of `Ranks` in the faceting file.
const RANKS: &[Piece] = &[
    whole("    pub fn element_sort_strong("),
    whole("    pub fn element_sort_strong_with_local("),
];

/// The methods of `Subspace` that the faceting leans on.
const SUBSPACE: &[Piece] = &[
    whole("    pub fn new(p"),
    whole("    pub fn dim("),
    whole("    pub fn rank("),
    whole("    pub fn is_hyperplane("),
    whole("    pub fn is_full_rank("),
    Piece {
        first_line: "    pub fn add(",
        patches: &[Patch {
            find: "T::EPS",
            put: "T::tolerance()",
            times: 1,
        }],
    },
    whole("    pub fn from_points<"),
    whole("    pub fn project("),
    whole("    pub fn flatten("),
    whole("    pub fn distance("),
];

const FREE: &[Piece] = &[
    whole("fn binary("),
    whole("fn label_irc("),
    whole("fn filter_irc("),
    Piece {
        first_line: "fn faceting_subdim(",
        patches: FACETING_PATCHES,
    },
];

/// What is altered in the faceting itself. Each addition but the tolerance and the
/// rule only reads the original's values; `watch` counts and stops, it never changes
/// them.
const FACETING_PATCHES: &[Patch] = &[
    // The tolerance is a value of the run instead of a constant.
    Patch {
        find: "f64::EPS",
        put: "f64::tolerance()",
        times: 5,
    },
    // Refusal 13, before a set opens an orbit; under rule 2 a crowded line opens none,
    // which alone alters what the original does, and only for jobs that name that rule.
    Patch {
        find: "contains(&hyperplane_vertices) {",
        put: "contains(&hyperplane_vertices)
                && !watch::passes_over(rank, hyperplane_vertices.len()) {
            watch::opens_orbit(rank, hyperplane_orbits.len(), hyperplane_vertices.len());",
        times: 1,
    },
    // Each orbit as it is found: its first set and its count.
    Patch {
        find: "hyperplane_orbits.push(new_orbit)",
        put: "watch::found_orbit(rank, &hyperplane_vertices, new_orbit.len());
            hyperplane_orbits.push(new_orbit)",
        times: 1,
    },
    // Refusal 14, when an orbit's turn to be faceted has come.
    Patch {
        find: "let mut stabilizer",
        put: "watch::refitted(rank, hp.rank());
            let mut stabilizer",
        times: 1,
    },
    // The rows of an orbit's inner call.
    Patch {
        find: "let (possible_facets_row, ",
        put: "watch::calls_inner(rank, &new_stabilizer);
            let (possible_facets_row, ",
        times: 1,
    },
    // Refusal 15, as the facets of an orbit are stored.
    Patch {
        find: "possible_facets.push(",
        put: "watch::stores_facets(
                possible_facets.iter().map(Vec::len).sum(), possible_facets_row.len());
            possible_facets.push(",
        times: 1,
    },
    // Shares of one facet in one ridge orbit, to report where they differ.
    Patch {
        find: "let mut ridge_muls_facet =",
        put: "let mut shares = vec![None; ridge_counts.len()];
            let mut ridge_muls_facet =",
        times: 1,
    },
    Patch {
        find: "if mul == 1",
        put: "watch::shares(&mut shares[ridge_orbit], mul);
            if mul == 1",
        times: 1,
    },
    // The count of examined lists, and refusal 16.
    Patch {
        find: "facets_queue.pop_back()",
        put: "watch::due(facets_queue.pop_back())",
        times: 1,
    },
    // Refusal 15, at a closed verdict; and the list as it is before splitting.
    Patch {
        find: "let mut new_facets = Vec",
        put: "watch::emits(rank, output.len(), &facets);
            let mut new_facets = Vec",
        times: 1,
    },
    // The entries are about to be sorted by their split lists.
    Patch {
        find: "output.sort_by(",
        put: "watch::sorts(rank, output.iter().map(|found| &found.1).collect());
    output.sort_by(",
        times: 1,
    },
    // The uniform filter leans on files that are not here; it is never asked for.
    Patch {
        find: "unsafe",
        put: "never_run!",
        times: 1,
    },
];

/// Proved libraries by name, and what is set where they are linked.
const PROVED: &[(&str, &str)] = &[("root", "has_root")];

fn main() {
    link_proved();
    println!("cargo::rustc-check-cfg=cfg(has_miratope)");
    println!("cargo::rerun-if-env-changed=MIRATOPE_SRC");
    println!("cargo::rerun-if-changed=build.rs");
    let source = source_place();
    for file in [FACETING, GEOMETRY] {
        println!("cargo::rerun-if-changed={}", source.join(file).display());
    }
    let (Some(faceting), Some(geometry)) = (read(&source, FACETING), read(&source, GEOMETRY))
    else {
        if env::var_os("MIRATOPE_SRC").is_some() {
            println!("cargo::warning=MIRATOPE_SRC does not hold {FACETING} and {GEOMETRY}");
        }
        return;
    };
    let out = PathBuf::from(env::var_os("OUT_DIR").expect("cargo sets OUT_DIR"));
    fs::write(out.join("original.rs"), assemble(&faceting, &geometry))
        .expect("OUT_DIR can be written");
    println!("cargo::rustc-cfg=has_miratope");
}

/// The libraries lie where `./library` leaves them, below the repository.
fn link_proved() {
    let place = fs::canonicalize("../target/staticlib").unwrap_or_default();
    for (name, flag) in PROVED {
        println!("cargo::rustc-check-cfg=cfg({flag})");
        println!("cargo::rerun-if-changed=../target/staticlib/lib{name}.a");
        if place.join(format!("lib{name}.a")).is_file() {
            println!("cargo::rustc-link-search=native={}", place.display());
            println!("cargo::rustc-link-lib=static={name}");
            println!("cargo::rustc-cfg={flag}");
        }
    }
}

fn source_place() -> PathBuf {
    match env::var_os("MIRATOPE_SRC") {
        Some(place) => PathBuf::from(place),
        None => Path::new("..").join("..").join("shared/docs/src"),
    }
}

fn read(source: &Path, file: &str) -> Option<String> {
    fs::read_to_string(source.join(file)).ok()
}

/// The whole module: methods back in their `impl`s, then the free functions.
fn assemble(faceting: &str, geometry: &str) -> String {
    let subspace = cut(geometry, "pub struct Subspace<");
    [
        format!("#[derive(Clone)]\n{subspace}"),
        methods("impl Ranks {", faceting, RANKS),
        methods("impl<T: Float> Subspace<T> {", geometry, SUBSPACE),
        pieces(faceting, FREE),
    ]
    .join("\n")
}

/// The listed methods alone of the `impl` with that first line.
fn methods(head: &str, source: &str, list: &[Piece]) -> String {
    let inside = cut(source, head);
    format!("{head}\n{}}}\n", pieces(&inside, list))
}

fn pieces(source: &str, list: &[Piece]) -> String {
    let patched = |piece: &Piece| patch(cut(source, piece.first_line), piece);
    list.iter().map(patched).collect()
}

fn patch(mut text: String, piece: &Piece) -> String {
    for Patch { find, put, times } in piece.patches {
        let found = text.matches(find).count();
        assert!(
            found == *times,
            "`{}`: the patch of `{find}` should apply {times} times, not {found}",
            piece.first_line
        );
        text = text.replace(find, put);
    }
    text
}

/// The text from the only line that begins so to its matching brace. That the
/// closing line is indented as the first is holds the count of braces to account.
fn cut(source: &str, first_line: &str) -> String {
    let starts: Vec<usize> = line_starts(source)
        .filter(|&at| source[at..].starts_with(first_line))
        .collect();
    let [start] = starts[..] else {
        panic!(
            "`{first_line}` should begin one line of the source, not {}",
            starts.len()
        );
    };
    let text = &source[start..start + matching_end(&source[start..], first_line)];
    let indent = |line: &str| line.len() - line.trim_start().len();
    let last_line = text.lines().next_back().unwrap_or("");
    assert!(
        last_line.trim_start() == "}" && indent(last_line) == indent(first_line),
        "the braces of `{first_line}` do not match at its own indentation"
    );
    format!("{text}\n")
}

fn line_starts(source: &str) -> impl Iterator<Item = usize> + '_ {
    std::iter::once(0).chain(source.match_indices('\n').map(|(at, _)| at + 1))
}

/// The place behind the brace that closes the first one opened.
fn matching_end(text: &str, first_line: &str) -> usize {
    let mut depth = 0;
    for (at, letter) in text.char_indices() {
        match letter {
            '{' => depth += 1,
            '}' => depth -= 1,
            _ => continue,
        }
        if depth == 0 {
            return at + 1;
        }
    }
    panic!("`{first_line}` is never closed");
}
