//! Cutting sheets: the pieces of a figure in millimetres, each kind once with its count,
//! as SVG and as DXF of the form R12, which old cutters read too.

use std::fmt::Write;

use super::cut::{drawing, Drawing, Layer, Mark, WIDTH};
use super::mark;
use super::markup::{escaped, tag};
use super::pieces::{pieces, Drawn, Piece};
use crate::parts::names::{length, polygon_words};
use crate::parts::polygon::Place;
use crate::report::Report;

/// Between pieces and around them, and the height of words, in millimetres.
const SPACE: f64 = 10.0;
const LETTERS: f64 = 4.0;

/// How an SVG file begins, and how its lines look.
const SVG: &str = "<svg xmlns=\"http://www.w3.org/2000/svg\"";
const STYLE: &str = "line{fill:none;stroke-width:.2}\
.CUT{stroke:#d00000}.FOLD{stroke:#0040c0;stroke-dasharray:2 1}.INNER{stroke:#888;stroke-dasharray:.5 1}\
text{font-family:sans-serif;fill:#222}.m{text-anchor:middle}";

/// How large things are cut.
#[derive(Clone, Copy, Debug, PartialEq)]
pub struct Size {
    /// The millimetres of one unit of the points.
    pub scale: f64,
    /// The width of flaps in millimetres; 0 for none.
    pub flaps: f64,
}

/// A sheet: drawings with their places and words, right and up from its corner.
struct Sheet {
    title: String,
    drawings: Vec<(Place, Drawing, String)>,
    size: Place,
}

/// The sheet of an entry as SVG and as DXF; none where no facet can be cut.
pub fn files(report: &Report, e: usize, size: Size) -> Option<[String; 2]> {
    let sheet = Sheet::of(report, e, size)?;
    let mark = mark(report, Some(e));
    Some([sheet.svg(&mark), sheet.dxf(&mark)])
}

impl Sheet {
    /// The pieces one above the other, the first on top.
    fn of(report: &Report, e: usize, size: Size) -> Option<Sheet> {
        let pieces = pieces(report, e);
        let mut height = SPACE;
        let mut drawings = Vec::new();
        for piece in pieces.iter().rev() {
            let drawn = drawing(piece, size.scale, size.flaps);
            let words = piece_words(report, piece, size.scale);
            let above = drawn.size[1] + LETTERS + 2.0 * SPACE;
            drawings.insert(0, ([SPACE, height], drawn, words));
            height += above;
        }
        let wide = |(_, drawn, words): &(Place, Drawing, String)| {
            let letters = words.chars().count() as f64 * WIDTH * LETTERS;
            drawn.size[0].max(letters) + 2.0 * SPACE
        };
        let width = drawings.iter().map(wide).fold(0.0, f64::max);
        let title = format!(
            "Entry {e} of {}, 1 unit = {} mm",
            report.subject.name, size.scale
        );
        let letters = title.chars().count() as f64 * WIDTH * LETTERS + 2.0 * SPACE;
        (!drawings.is_empty()).then(|| Sheet {
            title,
            drawings,
            size: [width.max(letters), height + LETTERS + SPACE],
        })
    }

    fn svg(&self, mark: &str) -> String {
        let [width, height] = self.size.map(|x| format!("{x:.2}"));
        let size = format!("width=\"{width}mm\" height=\"{height}mm\"");
        let head = format!("{SVG} {size} viewBox=\"0 0 {width} {height}\">\n<!-- {mark} -->\n");
        let mut text = head + &tag("title", escaped(&self.title)) + &tag("style", STYLE) + "\n";
        let down = |y: f64| self.size[1] - y;
        for (layer, [[a, b], [c, d]]) in self.lines() {
            let (layer, b, d) = (layer.name(), down(b), down(d));
            let ends = format!("x1=\"{a:.3}\" y1=\"{b:.3}\" x2=\"{c:.3}\" y2=\"{d:.3}\"");
            let _ = writeln!(text, "<line class=\"{layer}\" {ends}/>");
        }
        for mark in self.marks() {
            let ([x, y], turn, size) = (mark.place, -mark.slope, mark.size);
            let moved = format!("translate({x:.2} {:.2}) rotate({turn:.2})", down(y));
            let open = format!("text class=\"m\" transform=\"{moved}\" font-size=\"{size:.2}\"");
            text += &(tag(&open, escaped(&mark.words)) + "\n");
        }
        for ([x, y], words) in self.words() {
            let place = format!("x=\"{x:.2}\" y=\"{:.2}\"", down(y));
            let open = format!("text {place} font-size=\"{LETTERS}\"");
            text += &(tag(&open, escaped(words)) + "\n");
        }
        text + "</svg>\n"
    }

    /// All lines, from the corner of the sheet.
    fn lines(&self) -> impl Iterator<Item = (Layer, [Place; 2])> + '_ {
        self.drawings.iter().flat_map(|(corner, drawn, _)| {
            let moved =
                |&(layer, ends): &(Layer, [Place; 2])| (layer, ends.map(|end| plus(*corner, end)));
            drawn.lines.iter().map(moved)
        })
    }

    /// All marks, likewise.
    fn marks(&self) -> impl Iterator<Item = Mark> + '_ {
        self.drawings.iter().flat_map(|(corner, drawn, _)| {
            let moved = |mark: &Mark| Mark {
                place: plus(*corner, mark.place),
                words: mark.words.clone(),
                ..*mark
            };
            drawn.marks.iter().map(moved)
        })
    }

    /// The title, and the words above each piece.
    fn words(&self) -> impl Iterator<Item = (Place, &str)> + '_ {
        let title = [([SPACE, self.size[1] - SPACE], self.title.as_str())];
        let pieces = self.drawings.iter().map(|(corner, drawn, words)| {
            (
                plus(*corner, [0.0, drawn.size[1] + SPACE / 2.0]),
                words.as_str(),
            )
        });
        title.into_iter().chain(pieces)
    }

    fn dxf(&self, mark: &str) -> String {
        let mut text = groups(&[(999, &plain(mark)), (999, "millimetres")]);
        text += &groups(&[
            (0, "SECTION"),
            (2, "HEADER"),
            (9, "$ACADVER"),
            (1, "AC1009"),
            (0, "ENDSEC"),
        ]);
        text += &layers();
        text += &groups(&[(0, "SECTION"), (2, "ENTITIES")]);
        for (layer, [from, to]) in self.lines() {
            text += &groups(&[(0, "LINE"), (8, layer.name())]);
            text += &(place(10, from) + &place(11, to));
        }
        for mark in self.marks() {
            text += &dxf_words(mark.place, mark.size, &mark.words);
            text += &groups(&[(50, &format!("{:.3}", mark.slope)), (72, "1")]);
            text += &place(11, mark.place);
        }
        for (at, words) in self.words() {
            text += &dxf_words(at, LETTERS, words);
        }
        text + &groups(&[(0, "ENDSEC"), (0, "EOF")])
    }
}

/// Codes and values, each on a line of its own.
fn groups(pairs: &[(u16, &str)]) -> String {
    let group = |(code, value): &(u16, &str)| format!("{code}\n{value}\n");
    pairs.iter().map(group).collect()
}

/// The two coordinates of a place; the second has a code ten higher.
fn place(code: u16, [x, y]: Place) -> String {
    groups(&[(code, &format!("{x:.5}")), (code + 10, &format!("{y:.5}"))])
}

fn dxf_words(at: Place, size: f64, words: &str) -> String {
    let size = format!("{size:.2}");
    let head = groups(&[(0, "TEXT"), (8, "MARK")]) + &place(10, at);
    head + &groups(&[(40, &size), (1, &plain(words))])
}

fn plus([a, b]: Place, [x, y]: Place) -> Place {
    [a + x, b + y]
}

/// A × 6: square, side 40.0000 mm
fn piece_words(report: &Report, piece: &Piece, scale: f64) -> String {
    let shapes = &report.parts.shapes;
    let name = match &piece.drawn {
        Drawn::Stick(units) => format!("stick, length {}", length(units * scale)),
        Drawn::Polygon(polygon) => polygon_words(polygon, shapes, scale),
    };
    format!("{} × {}: {name} mm", piece.label, piece.count)
}

/// The layers with their colours: red, blue, grey, and black for words.
fn layers() -> String {
    let named = [Layer::Cut, Layer::Fold, Layer::Inner].map(Layer::name);
    let mut text = groups(&[
        (0, "SECTION"),
        (2, "TABLES"),
        (0, "TABLE"),
        (2, "LAYER"),
        (70, "4"),
    ]);
    for (name, colour) in named.into_iter().chain(["MARK"]).zip(["1", "5", "8", "7"]) {
        text += &groups(&[
            (0, "LAYER"),
            (2, name),
            (70, "0"),
            (62, colour),
            (6, "CONTINUOUS"),
        ]);
    }
    text + &groups(&[(0, "ENDTAB"), (0, "ENDSEC")])
}

/// The form has letters of ASCII alone, and a sign of its own for degrees.
fn plain(words: &str) -> String {
    let letter = |letter: char| match letter {
        '×' => "x".into(),
        '°' => "%%d".into(),
        '–' => "-".into(),
        letter if letter.is_ascii() => letter.to_string(),
        _ => "?".into(),
    };
    words.chars().map(letter).collect()
}
