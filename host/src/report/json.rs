//! JSON, as the register's command writes it: a value to write, and the shape of
//! an answer, a refusal and a bad file. docs/FORMAT.md tells the shape.

use std::fmt::{self, Display, Formatter, Write};

use faceting_register::answer::Pair;
use faceting_register::{Answer, Figure, Job};

use super::look::Look;
use super::margin::{Distance, Margin};
use super::noble::{Full, Noble};
use super::notes::Note;
use super::parts::{entry_json, shapes_json};
use super::{advice, Rejection, Report, Source, VERSION};
use crate::catalogue::number::number as lasting;
use crate::symmetry::{Carried, Kind};

/// Just what is written.
pub enum Json {
    /// Nothing.
    Null,
    /// Yes or no.
    Truth(bool),
    /// A coordinate or a length, with as many digits as tell it from every other.
    Float(f64),
    /// A whole number.
    Number(i64),
    /// A string.
    Text(String),
    /// A list.
    List(Vec<Json>),
    /// Names with values, in their order.
    Object(Vec<(&'static str, Json)>),
}

impl Display for Json {
    fn fmt(&self, f: &mut Formatter<'_>) -> fmt::Result {
        match self {
            Json::Null => f.write_str("null"),
            Json::Truth(truth) => write!(f, "{truth}"),
            Json::Float(number) => write!(f, "{number:?}"),
            Json::Number(number) => write!(f, "{number}"),
            Json::Text(text) => quote(f, text),
            Json::List(items) => enclosed(f, '[', items, ']', |f, item| write!(f, "{item}")),
            Json::Object(fields) => enclosed(f, '{', fields, '}', |f, (name, value)| {
                quote(f, name)?;
                write!(f, ":{value}")
            }),
        }
    }
}

fn enclosed<T>(
    f: &mut Formatter<'_>,
    open: char,
    items: &[T],
    close: char,
    one: impl Fn(&mut Formatter<'_>, &T) -> fmt::Result,
) -> fmt::Result {
    f.write_char(open)?;
    for (i, item) in items.iter().enumerate() {
        if i > 0 {
            f.write_char(',')?;
        }
        one(f, item)?;
    }
    f.write_char(close)
}

fn quote(f: &mut Formatter<'_>, text: &str) -> fmt::Result {
    f.write_char('"')?;
    for letter in text.chars() {
        match letter {
            '"' | '\\' => write!(f, "\\{letter}")?,
            letter if letter < ' ' => write!(f, "\\u{:04x}", u32::from(letter))?,
            letter => f.write_char(letter)?,
        }
    }
    f.write_char('"')
}

/// An answered job.
pub fn answered(report: &Report) -> Json {
    let Report {
        subject,
        job,
        answer,
        ..
    } = report;
    let mut fields = head(&subject.name, "answer", report.length as i64);
    fields.extend(source(&report.source));
    fields.extend([
        ("about", text_or_null(&subject.about)),
        ("rank", Json::Number(subject.rank.into())),
        ("label", Json::Text(report.label())),
        ("cut", Json::Truth(report.count.cut)),
        ("plain", or_null(&report.plain, |plain| numbers(plain))),
        ("closing", Json::Number(report.count.closing as i64)),
        ("carried", or_null(&report.carried, carried)),
        ("points", list(&job.points, |point| floats(point))),
        (
            "rows",
            list(&job.rows, |row| list(row, |&v| Json::Number(v.into()))),
        ),
        ("symmetry", or_null(&subject.found, symmetry)),
        ("limits", limits(job)),
        ("notes", list(&report.notes.list, note)),
        ("margin", or_null(&report.notes.margin, margin)),
        ("examined", number(answer.examined)),
        ("orbits", orbits(answer)),
        ("shapes", shapes_json(&report.parts)),
        ("entries", entries(report)),
        ("compounds", list(&answer.compounds, compound)),
        ("package", or_null(&report.noble, package)),
    ]);
    Json::Object(fields)
}

/// A job that the register refuses, with the notes on it where it can be read.
pub fn refused(name: &str, rejection: &Rejection) -> Json {
    let Rejection {
        refusal,
        culprit,
        notes,
        ..
    } = rejection;
    let (refusal, culprit) = (*refusal, culprit.as_ref());
    let mut fields = head(name, "refused", refusal.code());
    fields.extend(source(&rejection.source));
    fields.extend([
        ("refusal", Json::Number(refusal.number().into())),
        ("met", Json::Text(refusal.words().into())),
        ("place", text_or_null(&culprit.map(|c| c.place.clone()))),
        ("rule", Json::Text(advice::rule(refusal).into())),
        (
            "change",
            Json::Text(advice::change(refusal, culprit).into()),
        ),
        (
            "notes",
            notes
                .as_ref()
                .map_or(Json::List(vec![]), |notes| list(&notes.list, note)),
        ),
    ]);
    Json::Object(fields)
}

fn source(source: &Source) -> [(&'static str, Json); 3] {
    [
        ("engine", Json::Text(source.engine.into())),
        ("version", Json::Text(VERSION.into())),
        ("job", Json::Text(source.hash.clone())),
    ]
}

/// Which symmetries the host took for the rows.
fn symmetry(kind: &Kind) -> Json {
    Json::Text(kind.word().into())
}

/// Whether the rows are closed under composition, and for each entry the first row
/// that carries its figure elsewhere, or null.
fn carried(carried: &Carried) -> Json {
    let row = |row: &Option<usize>| or_null(row, |&row| Json::Number(row as i64));
    Json::Object(vec![
        ("closed", Json::Truth(carried.closed)),
        ("all", Json::Truth(carried.moved() == 0)),
        ("elsewhere", list(&carried.elsewhere, row)),
    ])
}

/// The package that the job was answered with, and what each entry makes on its full set.
fn package(noble: &Noble) -> Json {
    let bytes = |list: &[u8]| Json::List(list.iter().map(|&v| Json::Number(v.into())).collect());
    let count = |count: usize| Json::Number(count as i64);
    let full = |full: &Full| {
        Json::Object(vec![
            ("facets", count(full.facets)),
            ("ridges", count(full.ridges)),
            ("points", count(full.points)),
            ("around", list(&full.around, |&facets| count(facets))),
            ("closes", Json::Truth(full.closes())),
        ])
    };
    Json::Object(vec![
        ("sha256", Json::Text(noble.hash.clone())),
        ("points", Json::Number(noble.package.points.into())),
        ("count", Json::Number(noble.package.count.into())),
        ("global", bytes(&noble.package.global)),
        ("rows", list(&noble.package.rows, |row| bytes(row))),
        ("full", list(&noble.full, |entry| or_null(entry, full))),
    ])
}

/// Null where the job has no such limit.
fn limits(job: &Job) -> Json {
    Json::Object(vec![
        ("min", or_null(&job.min, |&length| Json::Float(length))),
        ("max", or_null(&job.max, |&length| Json::Float(length))),
        ("entries", or_null(&job.limit, |&limit| number(limit))),
        ("budget", number(job.budget)),
        ("tolerance", Json::Float(job.tolerance)),
        ("rule", number(job.rule.into())),
    ])
}

fn note(note: &Note) -> Json {
    Json::Object(vec![
        ("kind", Json::Text(note.kind.into())),
        ("weighs", Json::Truth(note.weighs)),
        ("words", Json::Text(note.words.clone())),
        ("change", Json::Text(note.change.clone())),
    ])
}

fn margin(margin: &Margin) -> Json {
    let side = |side: &Option<Distance>| or_null(side, |side| Json::Float(side.length));
    Json::Object(vec![
        ("on", side(&margin.on)),
        ("off", side(&margin.off)),
        ("border", Json::Float(margin.border)),
    ])
}

/// A file that is no job.
pub fn bad(name: &str, error: &str) -> Json {
    Json::Object(vec![
        ("file", Json::Text(name.into())),
        ("result", Json::Text("bad".into())),
        ("error", Json::Text(error.into())),
    ])
}

fn head(name: &str, result: &str, code: i64) -> Vec<(&'static str, Json)> {
    vec![
        ("file", Json::Text(name.into())),
        ("result", Json::Text(result.into())),
        ("code", Json::Number(code)),
    ]
}

fn orbits(answer: &Answer) -> Json {
    let orbit = |(count, facets): (&u32, &Vec<Figure>)| {
        let facets = list(facets, figure);
        Json::Object(vec![("count", number(*count)), ("facets", facets)])
    };
    Json::List(
        answer
            .counts
            .iter()
            .zip(&answer.facets)
            .map(orbit)
            .collect(),
    )
}

fn entries(report: &Report) -> Json {
    let entries = 0..report.answer.entries.len();
    Json::List(entries.map(|e| one(report, e)).collect())
}

fn one(report: &Report, e: usize) -> Json {
    let entry = &report.answer.entries[e];
    let built = &entry.figure;
    let [points, edges, facets] = report.answer.summaries[e];
    Json::Object(vec![
        ("parts", list(&entry.list, pair)),
        ("before", list(&entry.before, pair)),
        ("split", list(&entry.compound_facets(), compound_facet)),
        ("points", number(points)),
        ("edges", number(edges)),
        ("facets", number(facets)),
        ("figure", figure(built)),
        ("look", seen(&report.looks[e])),
        ("number", Json::Text(lasting(&report.job, built))),
        ("measured", entry_json(&report.parts.entries[e], built)),
    ])
}

fn pair(&(orbit, facet): &Pair) -> Json {
    numbers(&[orbit, facet])
}

/// A compound facet whole, and what stands for it in the parts.
fn compound_facet((whole, parts): &(Pair, Vec<Pair>)) -> Json {
    Json::Object(vec![("facet", pair(whole)), ("into", list(parts, pair))])
}

/// The host's own look at an entry.
fn seen(look: &Look) -> Json {
    Json::Object(vec![
        ("closes", Json::Truth(look.closes())),
        ("open", text_or_null(&look.open)),
        ("pieces", Json::Number(look.pieces as i64)),
        ("equals", or_null(&look.equals, |&e| Json::Number(e as i64))),
    ])
}

fn compound([whole, first, second]: &[u32; 3]) -> Json {
    let parts = numbers(&[*first, *second]);
    Json::Object(vec![("entry", number(*whole)), ("of", parts)])
}

/// A list of ranks, each a list of elements, each a list of numbers.
fn figure(figure: &Figure) -> Json {
    list(&figure.ranks, |rank| list(rank, |subs| numbers(subs)))
}

fn list<T>(items: &[T], one: impl Fn(&T) -> Json) -> Json {
    Json::List(items.iter().map(one).collect())
}

fn numbers(items: &[u32]) -> Json {
    list(items, |&item| number(item))
}

fn number(number: u32) -> Json {
    Json::Number(number.into())
}

fn floats(items: &[f64]) -> Json {
    list(items, |&item| Json::Float(item))
}

fn or_null<T>(item: &Option<T>, one: impl Fn(&T) -> Json) -> Json {
    item.as_ref().map_or(Json::Null, one)
}

fn text_or_null(text: &Option<String>) -> Json {
    or_null(text, |text| Json::Text(text.clone()))
}
