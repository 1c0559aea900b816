//! A contact sheet: every figure of a set small, with its number and parts, and its price
//! where a tariff was given.

use super::colour::{self, STYLE};
use super::mark;
use super::markup::{escaped, tag};
use super::picture::{head, short, Painter, PAPER};
use crate::catalogue::number::number;
use crate::parts::shapes::letter;
use crate::parts::EntryParts;
use crate::report::parts::shape_words;
use crate::report::Report;

/// Pictures in a row, their size, and the room of a picture with its words.
const COLUMNS: usize = 5;
const SIZE: f64 = 170.0;
const CELL: [f64; 2] = [200.0, 224.0];

/// A line of words, and what stands above the pictures.
const LINE: f64 = 18.0;
const TOP: f64 = 88.0;

/// The sheet of a set.
pub fn sheet(report: &Report, painter: &Painter) -> String {
    let entries = &report.parts.entries;
    let rows = entries.len().div_ceil(COLUMNS) as f64;
    let legend = TOP + rows * CELL[1];
    let height = legend + LINE * (report.parts.used + 1) as f64;
    let mut text = head(COLUMNS as f64 * CELL[0], height, &mark(report, None));
    let (name, label) = (escaped(&report.subject.name), escaped(&report.label()));
    let style = format!("{STYLE}.t{{font-size:13px}}.h{{font-size:20px}}");
    text += &tag("title", format!("{name}: {label}"));
    text += &tag("style", style);
    text += PAPER;
    text += &tag("text class=\"h\" x=\"16\" y=\"30\"", name);
    text += &words(16.0, 52.0, &label);
    if let Some(promise) = report.count.promise() {
        text += &words(16.0, 52.0 + LINE, &format!("plain: {promise}"));
    }
    for (e, entry) in entries.iter().enumerate() {
        let number = number(&report.job, &report.answer.entries[e].figure);
        text += &cell(e, &number, entry, report.price(e), painter);
    }
    for shape in 0..report.parts.used {
        text += &key(report, shape, legend + LINE * (shape + 1) as f64);
    }
    text + "</svg>\n"
}

fn words(x: f64, y: f64, words: &str) -> String {
    let (x, y) = (short(x), short(y));
    tag(&format!("text class=\"t\" x=\"{x}\" y=\"{y}\""), words)
}

/// A shape's colour and words.
fn key(report: &Report, shape: usize, y: f64) -> String {
    let (class, top) = (colour::face(shape), short(y - 11.0));
    let square = format!("x=\"16\" y=\"{top}\" width=\"12\" height=\"12\"");
    let told = words(36.0, y, &escaped(&shape_words(&report.parts, shape)));
    format!("<rect class=\"{class}\" {square}/>{told}\n")
}

/// A picture with the entry's numbers, parts and price below it.
fn cell(
    e: usize,
    lasting: &str,
    entry: &EntryParts,
    price: Option<u64>,
    painter: &Painter,
) -> String {
    let (column, row) = ((e % COLUMNS) as f64, (e / COLUMNS) as f64);
    let (x, y) = (column * CELL[0] + 15.0, TOP + row * CELL[1]);
    let number = words(0.0, SIZE + 16.0, &format!("entry {e}: {lasting}"));
    let price = price.map_or_else(String::new, |pence| format!("; {pence} pence"));
    let parts = words(0.0, SIZE + 34.0, &(parts_in_short(entry) + &price));
    let open = format!("g transform=\"translate({} {})\"", short(x), short(y));
    tag(&open, painter.strokes(e, SIZE) + &number + &parts) + "\n"
}

/// As many of the parts as fit below a picture: 6 A, 8 B.
fn parts_in_short(entry: &EntryParts) -> String {
    const MOST: usize = 4;
    let part = |&(shape, count): &(usize, usize)| format!("{count} {}", letter(shape));
    let mut told: Vec<String> = entry.counts.iter().take(MOST).map(part).collect();
    if entry.counts.len() > MOST {
        told.push("..".into());
    }
    told.join(", ")
}
