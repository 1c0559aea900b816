//! What a reader of the label should know of the set: the host's own look at the
//! job, a line to a note, with what to do. None of it is proved, and none of it
//! changes an answer.

use std::collections::HashSet;

use faceting_register::bounds::SOCIETY_RULE;
use faceting_register::job::compose;
use faceting_register::Job;

use super::flat::Flat;
use super::margin::{Distance, Margin};
use crate::geometry::{flattened, minus, norm};
use crate::symmetry::comparison;

/// One thing to know, and what to do about it.
#[derive(Clone, Debug, PartialEq, Eq)]
pub struct Note {
    /// One word for programs.
    pub kind: &'static str,
    /// What was seen.
    pub words: String,
    /// What to do.
    pub change: String,
    /// Whether the label should not be used before it is read.
    pub weighs: bool,
}

/// The notes on a set and its margin.
#[derive(Clone, Debug, PartialEq)]
pub struct Notes {
    /// In the order of their weight.
    pub list: Vec<Note>,
    /// The margin, where planes are fitted.
    pub margin: Option<Margin>,
}

impl Notes {
    /// What is to be said of a job that passes refusals 1 to 11.
    pub fn of(job: &Job) -> Notes {
        let set = Set::of(job);
        Notes {
            list: CHECKS.iter().filter_map(|check| check(&set)).collect(),
            margin: (job.rank > 2).then_some(set.margin),
        }
    }

    /// How many of them weigh.
    pub fn weight(&self) -> usize {
        self.list.iter().filter(|note| note.weighs).count()
    }
}

/// A job with what the checks share.
struct Set<'a> {
    job: &'a Job,
    /// The points as the register sees them, flattened.
    flat: Vec<Vec<f64>>,
    /// Between these.
    distances: Vec<Vec<f64>>,
    tolerance: f64,
    margin: Margin,
}

impl Set<'_> {
    fn of(job: &Job) -> Set<'_> {
        let tolerance = job.tolerance;
        let flat = flattened(job);
        let from = |a: &Vec<f64>| flat.iter().map(|b| norm(&minus(a, b))).collect();
        let dimensions = usize::from(job.rank).saturating_sub(1);
        Set {
            job,
            distances: flat.iter().map(from).collect(),
            margin: Margin::of(&flat, dimensions, tolerance),
            flat,
            tolerance,
        }
    }

    /// Every two points, the first in front.
    fn pairs(&self) -> impl Iterator<Item = (usize, usize)> {
        let n = self.flat.len();
        (0..n).flat_map(move |a| (a + 1..n).map(move |b| (a, b)))
    }
}

/// The notes, in the order of their weight.
const CHECKS: [fn(&Set) -> Option<Note>; 11] = [
    unkept_distances,
    no_group,
    equal_points,
    crowded_lines,
    flat_set,
    lost_coordinates,
    crossed_limits,
    small_set,
    thin_margin,
    other_symmetry,
    lines_without_edges,
];

fn note(kind: &'static str, words: String, change: impl Into<String>) -> Option<Note> {
    Some(Note {
        kind,
        words,
        change: change.into(),
        weighs: true,
    })
}

/// A difference beyond this part of a distance is no rounding.
const GROSS: f64 = 0.01;

/// The first row that does not keep distances, with the pair that it alters most.
fn unkept_distances(set: &Set) -> Option<Note> {
    let image = |row: &[u8], (a, b): (usize, usize)| (row[a].into(), row[b].into());
    let distance = |(a, b): (usize, usize)| set.distances[a][b];
    let altered = |row: &[u8], pair| (distance(image(row, pair)) - distance(pair)).abs();
    let worst = |row: &[u8]| {
        let pairs = set.pairs().map(|pair| (altered(row, pair), pair));
        pairs.max_by(|(a, _), (b, _)| a.total_cmp(b))
    };
    let (r, row, (difference, pair)) = set.job.rows.iter().enumerate().find_map(|(r, row)| {
        let worst = worst(row).filter(|(difference, _)| *difference > set.tolerance);
        worst.map(|worst| (r, row, worst))
    })?;
    let to = image(row, pair);
    let images: Vec<String> = row.iter().map(u8::to_string).collect();
    let words = format!(
        "row {r} ({}) does not keep distances: points {} and {} are {} apart, their images {} and {} are {}",
        images.join(" "),
        pair.0,
        pair.1,
        precise(distance(pair)),
        to.0,
        to.1,
        precise(distance(to))
    );
    let gross = difference > GROSS * distance(pair).max(distance(to));
    let change = match gross {
        true => "correct the row or generator, or two points that stand in each other's place",
        false => MORE_DIGITS,
    };
    note("distances", words, change)
}

const MORE_DIGITS: &str =
    "write coordinates with 12 or more decimals, or as expressions such as (1+sqrt(5))/2";

/// The first two rows that give no row one after the other.
fn no_group(set: &Set) -> Option<Note> {
    let rows = &set.job.rows;
    let known: HashSet<&[u8]> = rows.iter().map(Vec::as_slice).collect();
    let pairs = (0..rows.len()).flat_map(|a| (0..rows.len()).map(move |b| (a, b)));
    let missing = |&(a, b): &(usize, usize)| !known.contains(&compose(&rows[a], &rows[b])[..]);
    let (a, b) = pairs.into_iter().find(missing)?;
    let words = match a == b {
        true => format!("the rows are no group: row {a} done twice is no row"),
        false => format!("the rows are no group: row {a} and then row {b} is no row"),
    };
    note("group", words, "write 'generators' in place of 'rows'")
}

fn equal_points(set: &Set) -> Option<Note> {
    let equal = |&(a, b): &(usize, usize)| set.distances[a][b] <= set.tolerance;
    let (a, b) = set.pairs().find(equal)?;
    let more = set.pairs().filter(equal).count() - 1;
    let others = match more {
        0 => String::new(),
        1 => " (and another pair)".into(),
        more => format!(" (and {more} more pairs)"),
    };
    let equal = match set.distances[a][b] {
        0.0 => "are equal".into(),
        length => format!("are {} apart and count as equal", short(length)),
    };
    let words = format!("points {a} and {b} {equal}{others}");
    note("equal", words, "leave one of them out")
}

/// A line with more than two points has an edge between its first two alone.
fn crowded_lines(set: &Set) -> Option<Note> {
    let ruled_out = set.job.rule == SOCIETY_RULE && set.job.rank > 2;
    let (lines, a, b) = lines_of_many(set).filter(|_| !ruled_out)?;
    let words = format!(
        "{lines}: only the edge between a line's first two points is tried, here {a}-{b}, so the numbering of the points matters"
    );
    let change =
        "leave out points that are no corners, or number first the two that the edge joins";
    let change = match set.job.rank > 2 {
        true => format!("write 'rule 2', under which such a line has no edge, or {change}"),
        false => change.into(),
    };
    note("crowded", words, change)
}

/// Under the society's rule such a line has no edge: no fault, but good to know.
fn lines_without_edges(set: &Set) -> Option<Note> {
    let ruled_out = set.job.rule == SOCIETY_RULE && set.job.rank > 2;
    let (lines, ..) = lines_of_many(set).filter(|_| ruled_out)?;
    Some(Note {
        kind: "rule",
        words: format!("{lines}: under rule 2 no edge lies on such a line"),
        change: "leave out points that are no corners, or write 'rule 1' to try the edge between a line's first two points".into(),
        weighs: false,
    })
}

/// The first line with more than two points, in words, how many more there are, and its
/// first two points.
fn lines_of_many(set: &Set) -> Option<(String, usize, usize)> {
    let mut lines: Vec<Vec<usize>> = Vec::new();
    for (a, b) in set.pairs() {
        let line = Flat::through([&set.flat[a], &set.flat[b]], set.tolerance);
        let seen = |line: &Vec<usize>| line.contains(&a) && line.contains(&b);
        if line.dimension() == 0 || lines.iter().any(seen) {
            continue;
        }
        let near = |&p: &usize| line.distance(&set.flat[p]) < set.tolerance;
        let held: Vec<usize> = (0..set.flat.len()).filter(near).collect();
        if held.len() > 2 {
            lines.push(held);
        }
    }
    let [a, b, rest @ ..] = &lines.first()?[..] else {
        return None;
    };
    let rest: Vec<String> = rest.iter().map(usize::to_string).collect();
    let first = format!("points {a}, {b}, {} lie on a line", rest.join(", "));
    let more = match lines.len() {
        1 => String::new(),
        2 => ", and there is another such line".into(),
        more => format!(", and there are {} more such lines", more - 1),
    };
    Some((first + &more, *a, *b))
}

fn flat_set(set: &Set) -> Option<Note> {
    let asked = set.flat.first()?.len();
    let spanned = Flat::through(&set.flat, set.tolerance).dimension();
    if spanned == asked {
        return None;
    }
    let dimensions = match spanned {
        1 => "1 dimension".into(),
        more => format!("{more} dimensions"),
    };
    let rank = set.job.rank;
    let words =
        format!("the set lies flat, in {dimensions}, where rank {rank} asks for {asked} of them");
    let change = match spanned {
        0 => "correct the points".into(),
        _ => format!(
            "write 'rank {}' and the basis of its flat, or correct the points",
            spanned + 1
        ),
    };
    note("flat", words, change)
}

/// The point that differs most from the first in what the basis does not see.
fn lost_coordinates(set: &Set) -> Option<Note> {
    let points = &set.job.points;
    let seen = Flat::along(points.first()?, &set.job.basis, set.tolerance);
    let lost = points
        .iter()
        .enumerate()
        .map(|(p, point)| (seen.distance(point), p));
    let (length, point) = lost.max_by(|a, b| a.0.total_cmp(&b.0))?;
    if length <= set.tolerance {
        return None;
    }
    let words = format!(
        "coordinates are projected away: point {point} is {} off the flat through point 0 that the set is seen in",
        short(length)
    );
    let change = "give the offset and basis of the flat that the points lie in, or another rank";
    note("projected", words, change)
}

fn crossed_limits(set: &Set) -> Option<Note> {
    let (min, max) = (set.job.min?, set.job.max?);
    if min <= max {
        return None;
    }
    let words = format!("min {min} is above max {max}, so no edge is left");
    note("limits", words, "exchange them")
}

fn small_set(set: &Set) -> Option<Note> {
    let widest = set.distances.iter().flatten().copied().fold(0.0, f64::max);
    if widest > set.tolerance {
        return None;
    }
    let words = format!(
        "the whole set is {} wide, less than the tolerance {}",
        short(widest),
        short(set.tolerance)
    );
    note("small", words, "scale it up")
}

fn thin_margin(set: &Set) -> Option<Note> {
    let on = set.margin.barely_on().map(|on| counts(on, "on"));
    let off = set.margin.barely_off().map(|off| counts(off, "off"));
    let sides: Vec<String> = on.into_iter().chain(off).collect();
    if sides.is_empty() {
        return None;
    }
    let words = format!("the margin is thin: {}", sides.join("; "));
    note("margin", words, MORE_DIGITS)
}

/// Rows beside the symmetries that are found in the points. Fewer of them are a
/// choice, and those that are none have a note of their own, so that it is light.
fn other_symmetry(set: &Set) -> Option<Note> {
    let (words, change) = comparison(set.job)?.note()?;
    Some(Note {
        kind: "symmetry",
        words,
        change: change.into(),
        weighs: false,
    })
}

/// Where a point lies, and what it counts as.
fn counts(distance: &Distance, counts: &str) -> String {
    let Distance { length, point, of } = distance;
    let flat = match of.len() {
        2 => "line",
        3 => "plane",
        _ => "flat",
    };
    let of: Vec<String> = of.iter().map(usize::to_string).collect();
    let (of, length) = (of.join(" "), short(*length));
    format!("point {point} is {length} from the {flat} of {of} and counts as {counts} it")
}

/// A length with as many digits as tell roundings apart.
fn precise(length: f64) -> String {
    trimmed(format!("{length:.9}"))
}

/// A length in few letters: three digits, with an exponent where it is small.
pub fn short(length: f64) -> String {
    if length == 0.0 {
        return "0".into();
    }
    if length < 0.001 {
        return format!("{length:.1e}").replace(".0e", "e");
    }
    trimmed(format!("{length:.3}"))
}

/// Without the zeros that end a decimal.
fn trimmed(text: String) -> String {
    text.trim_end_matches('0').trim_end_matches('.').into()
}
