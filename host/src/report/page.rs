//! The register's page for a vertex set. Every number of figures, orbits and facets
//! is read from the answer's bytes; the host's own look at them and at the job is told
//! as such.

use std::fmt::Write;

use faceting_register::answer::Pair;
use faceting_register::job::{RULE_VERSION, TOLERANCE_VERSION};
use faceting_register::Answer;

use super::label::{counted, Count};
use super::look::Look;
use super::margin::Margin;
use super::notes::{short, Note};
use super::parts::{facet_words, put_parts};
use super::{noble, Report, Source, VERSION};
use crate::parts::Parts;
use crate::symmetry::{Carried, Kind};

/// What a page is about: a name, what its writer says of it, and the job's rank.
#[derive(Clone, Debug)]
pub struct Subject {
    /// Its name, as the page has it.
    pub name: String,
    /// The comment that begins its text.
    pub about: Option<String>,
    /// The job's rank.
    pub rank: u8,
    /// Which symmetries its rows are, where the host found them.
    pub found: Option<Kind>,
}

/// What the words on a page mean, and which of them the host is responsible for.
const WORDS: &str = "\
The host's own look, which is not proved: the notes, the margin, what closes in itself,
pieces, equal figures, and what is measured: shapes, lengths and angles. That rows which
are closed under composition carry each figure to itself is proved, and looked at again.
Which figures are plain is what a second proved call writes. All else stands in the
answer. A figure's points are those at which one of its edges ends. It closes in itself
where each of its ridges (at rank 3 a point, at rank 4 an edge) lies in exactly two of its
facets. It is in pieces where its facets fall apart into groups without a common ridge. It
is a compound where its parts are those of two other entries together. A facet can be a
compound of others in its plane: their parts then stand for it among the figure's, and the
list before splitting has it whole. A figure is plain where an ordered walk, which may
miss one, finds no other entry's parts among its own. A row carries a figure to itself
where the images of its edges are its edges, of its polygons its polygons, and so up to
its facets. Lengths are in the units of the points. The angle of a joint is that between
its two facets, at most 180°.
";

/// The whole page, each line ended.
pub fn page(report: &Report) -> String {
    let Report {
        subject, answer, ..
    } = report;
    let mut text = format!("{}\n", subject.name);
    if let Some(about) = &subject.about {
        let _ = writeln!(text, "{about}");
    }
    let _ = writeln!(text, "\nLabel: {}", report.label());
    if let Some(promise) = report.count.promise() {
        let _ = writeln!(text, "  plain: {promise}");
    }
    if let Some(noble) = &report.noble {
        let _ = writeln!(text, "  noble: {}", noble.promise(&report.job));
    }
    put_notes(&mut text, report);
    put_orbits(&mut text, subject.rank, answer, &report.parts);
    put_entries(&mut text, report);
    put_parts(&mut text, report);
    put_compounds(&mut text, answer);
    put_plain(&mut text, report);
    put_full(&mut text, report);
    let lists = counted(answer.examined as usize, "list was", "lists were");
    let Source { engine, hash } = &report.source;
    let _ = writeln!(text, "\n{lists} examined.\n");
    if let Some(kind) = subject.found {
        let rows = found_rows(report.job.rows.len(), kind);
        let _ = writeln!(text, "Rows: {rows} that the host found in the points");
    }
    if report.job.version >= TOLERANCE_VERSION {
        let _ = writeln!(text, "Tolerance: {}", short(report.job.tolerance));
    }
    if report.job.version >= RULE_VERSION {
        let _ = writeln!(text, "Rule of crowded lines: {}", report.job.rule);
    }
    let _ = writeln!(
        text,
        "Answered by: {engine}, command version {VERSION}\nJob: sha256 {hash}"
    );
    match &report.noble {
        None => text + "\n" + WORDS,
        Some(noble) => {
            let _ = writeln!(text, "Package: sha256 {}\n", noble.hash);
            text + WORDS + noble::WORDS
        }
    }
}

fn found_rows(rows: usize, kind: Kind) -> String {
    match (rows, kind) {
        (1, _) => "the one symmetry".into(),
        (_, Kind::Full) => format!("the {rows} symmetries"),
        (_, Kind::Turns) => format!("the {rows} turns"),
    }
}

/// The notes with what to do, and the margin.
fn put_notes(text: &mut String, report: &Report) {
    let notes = &report.notes.list;
    let count = match notes.len() {
        0 => "none".into(),
        some => some.to_string(),
    };
    let _ = writeln!(text, "\nNotes: {count}");
    for Note { words, change, .. } in notes {
        let _ = writeln!(text, "  {words}; what to do: {change}");
    }
    let margin = report.notes.margin.as_ref();
    if let Some(words) = margin.and_then(|margin| margin_words(margin, report.job.rank)) {
        let _ = writeln!(text, "  margin: {words}");
    }
}

/// Distances below this are roundings of the sums themselves.
const ROUNDING: f64 = 1e-12;

/// Both sides of the border, as far as there is a point on them.
fn margin_words(margin: &Margin, rank: u8) -> Option<String> {
    let flat = match rank {
        3 => "line",
        _ => "line or plane",
    };
    let on = margin.on.as_ref().map(|on| {
        let within = on.length.max(ROUNDING);
        format!(
            "points counted on a {flat} lie within {} of it",
            short(within)
        )
    });
    let off = margin.off.as_ref().map(|off| {
        let from = short(off.length);
        format!("points counted off a {flat} are {from} or more away")
    });
    let parts: Vec<String> = on.into_iter().chain(off).collect();
    let border = short(margin.border);
    (!parts.is_empty()).then(|| format!("{}; the border is {border}", parts.join("; ")))
}

/// What the sets of an orbit are called: one of them, several of them.
fn hyperplanes(rank: u8) -> (&'static str, &'static str) {
    match rank {
        2 => ("point", "points"),
        3 => ("line", "lines"),
        4 => ("plane", "planes"),
        _ => ("hyperplane", "hyperplanes"),
    }
}

/// Each orbit with its count and its possible facets, a line to a facet.
fn put_orbits(text: &mut String, rank: u8, answer: &Answer, parts: &Parts) {
    let (one, many) = hyperplanes(rank);
    let orbits = counted(answer.counts.len(), "orbit", "orbits");
    let _ = writeln!(text, "\nPossible facets: {orbits} of {many}");
    for (o, (&count, facets)) in answer.counts.iter().zip(&parts.possible).enumerate() {
        let sets = counted(count as usize, one, many);
        let choice = counted(facets.len(), "possible facet", "possible facets");
        let _ = writeln!(text, "  orbit {o}: {sets}, {choice}");
        for (f, &facet) in facets.iter().enumerate() {
            let words = facet_words(&parts.shapes.facets[facet], parts);
            let _ = writeln!(text, "    {o}.{f}  {words}");
        }
    }
}

/// The entries as a table; the parts stand last, since their number differs. Below
/// it what the host saw in them, where there is something to tell.
fn put_entries(text: &mut String, report: &Report) {
    let answer = &report.answer;
    let entries = counted(answer.entries.len(), "entry", "entries");
    let Count {
        figures, closing, ..
    } = report.count;
    let closing = match (figures, closing) {
        (0, _) => "".into(),
        (1, 1) => ", closes in itself".into(),
        (all, some) if all == some => ", all close in themselves".into(),
        (_, 0) => ", none of them closes in itself".into(),
        (_, 1) => ", 1 of them closes in itself".into(),
        (_, some) => format!(", {some} of them close in themselves"),
    };
    let _ = writeln!(text, "\nFigures: {entries}{closing}");
    if answer.entries.is_empty() {
        return;
    }
    let _ = writeln!(text, "  entry  points  edges  facets  parts (orbit.facet)");
    let rows = answer.entries.iter().zip(&answer.summaries);
    for (e, (entry, [points, edges, facets])) in rows.enumerate() {
        let parts = facets_in_a_row(&entry.list);
        let _ = writeln!(
            text,
            "  {e:>5}  {points:>6}  {edges:>5}  {facets:>6}  {parts}"
        );
    }
    for (e, entry) in answer.entries.iter().enumerate() {
        let compound = entry.compound_facets();
        if !compound.is_empty() {
            let whole = facets_in_a_row(&entry.before);
            let split: Vec<String> = compound.iter().map(split_words).collect();
            let split = split.join("; ");
            let _ = writeln!(text, "  entry {e}, before splitting: {whole}; {split}");
        }
    }
    let several = report.job.rows.len() > 1;
    if let Some(carried) = report.carried.as_ref().filter(|_| several) {
        let _ = writeln!(text, "  {}", carried_words(carried));
    }
    for (e, look) in report.looks.iter().enumerate() {
        let seen = seen(look);
        if !seen.is_empty() {
            let _ = writeln!(text, "  entry {e}: {}", seen.join("; "));
        }
    }
}

/// Which entries are plain.
fn put_plain(text: &mut String, report: &Report) {
    if let Some(numbers) = &report.plain {
        let entries = counted(numbers.len(), "entry", "entries");
        let _ = writeln!(text, "\nPlain: {entries}");
        if !numbers.is_empty() {
            let _ = writeln!(text, "  {}", spans(numbers));
        }
    }
}

/// The package, and what the figures make on its full set.
fn put_full(text: &mut String, report: &Report) {
    if let Some(noble) = &report.noble {
        let _ = writeln!(text, "\nOn the full set: {}", noble.words());
        for line in noble.lines(report.job.rank) {
            let _ = writeln!(text, "  {line}");
        }
    }
}

/// Ascending numbers, neighbours together: 0 to 3, 5, 7 to 9.
pub fn spans(numbers: &[u32]) -> String {
    let mut spans: Vec<[u32; 2]> = Vec::new();
    for &number in numbers {
        match spans.last_mut() {
            Some([_, last]) if *last + 1 == number => *last = number,
            _ => spans.push([number, number]),
        }
    }
    let words = spans.iter().map(|&[first, last]| match last - first {
        0 => first.to_string(),
        1 => format!("{first}, {last}"),
        _ => format!("{first} to {last}"),
    });
    words.collect::<Vec<String>>().join(", ")
}

/// What the rows do to the figures: promised where they are closed under composition,
/// and looked at in any case.
fn carried_words(carried: &Carried) -> String {
    if let Some(broken) = carried.broken() {
        return format!("{broken}: this breaks a promise that is proved");
    }
    let figures = carried.elsewhere.len();
    let which = match (figures, figures - carried.moved()) {
        (1, 1) => "carried to itself".into(),
        (1, _) => "not carried to itself".into(),
        (_, 0) => "none of them is carried to itself".into(),
        (all, some) if all == some => "each of them is carried to itself".into(),
        (_, 1) => "1 of them is carried to itself".into(),
        (_, some) => format!("{some} of them are carried to themselves"),
    };
    let rows = match carried.closed {
        true => "",
        false => ", which are not closed under composition",
    };
    format!("{which} by all rows{rows}")
}

/// What there is to tell of an entry.
fn seen(look: &Look) -> Vec<String> {
    let open = look.open.as_ref();
    let open = open.map(|ridge| format!("does not close in itself, {ridge}"));
    let pieces = (look.pieces > 1).then(|| format!("in {} pieces", look.pieces));
    let equals = look.equals.map(|other| format!("entry {other} again"));
    [open, pieces, equals].into_iter().flatten().collect()
}

fn part((orbit, facet): &Pair) -> String {
    format!("{orbit}.{facet}")
}

fn facets_in_a_row(list: &[Pair]) -> String {
    let facets: Vec<String> = list.iter().map(part).collect();
    facets.join(" ")
}

/// A compound facet and its parts: 1.1 is 1.0 and 1.2 together.
fn split_words((whole, parts): &(Pair, Vec<Pair>)) -> String {
    let parts: Vec<String> = parts.iter().map(part).collect();
    format!("{} is {} together", part(whole), parts.join(" and "))
}

fn put_compounds(text: &mut String, answer: &Answer) {
    let compounds = counted(answer.compounds.len(), "entry", "entries");
    let _ = writeln!(text, "\nCompounds: {compounds}");
    for [whole, first, second] in &answer.compounds {
        let _ = writeln!(
            text,
            "  entry {whole} is made of entries {first} and {second}"
        );
    }
}
