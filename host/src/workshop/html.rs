//! One page for each set that works by itself, from a file and without a network: the
//! label, notes, a table of figures that sorts and filters, and a figure large, to turn.

use super::colour::{self, STYLE};
use super::mark;
use super::markup::{escaped, section, tag};
use super::picture::Painter;
use crate::catalogue::number::number;
use crate::report::json::Json;
use crate::report::label::Count;
use crate::report::notes::Note;
use crate::report::page::spans;
use crate::report::parts::{entry_words, shape_words};
use crate::report::{Report, Source, VERSION};

const CSS: &str = include_str!("page.css");
const SCRIPT: &str = include_str!("page.js");

/// The columns that sort and filter: what rows call them, and what people do.
const COLUMNS: [(&str, &str); 4] = [
    ("points", "Points"),
    ("edges", "Edges"),
    ("facets", "Facets"),
    ("pieces", "Pieces"),
];

/// The size of a small picture.
pub const SMALL: f64 = 96.0;

/// What is large, and how it is turned.
const DIALOG: &str = "<dialog aria-labelledby=\"number\"><h2 id=\"number\"></h2>
<canvas role=\"img\" tabindex=\"0\"></canvas>
<p class=\"words\"></p>
<div class=\"tools\">
<button type=\"button\" data-do=\"left\" aria-label=\"Turn left\">←</button>
<button type=\"button\" data-do=\"right\" aria-label=\"Turn right\">→</button>
<button type=\"button\" data-do=\"up\" aria-label=\"Turn up\">↑</button>
<button type=\"button\" data-do=\"down\" aria-label=\"Turn down\">↓</button>
<button type=\"button\" data-do=\"near\" aria-label=\"Larger\">+</button>
<button type=\"button\" data-do=\"far\" aria-label=\"Smaller\">−</button>
<button type=\"button\" data-do=\"back\">As it was</button>
<button type=\"button\" data-do=\"before\">Previous</button>
<button type=\"button\" data-do=\"next\">Next</button>
<button type=\"button\" data-do=\"close\">Close</button>
</div>
<p class=\"soft\">Drag it, or turn it with the arrow keys; + and − change its size, Home brings it back,
Page Up and Page Down show others, Escape closes.</p></dialog>
";

/// The page of a set; `back` leads to the index.
pub fn page(report: &Report, back: &str) -> String {
    let painter = Painter::of(report);
    let (name, label) = (escaped(&report.subject.name), escaped(&report.label()));
    let main = [
        notes(report),
        figures(report, &painter),
        shapes(report),
        compounds(report),
        plain(report),
    ];
    let main = main.concat();
    let data = data(report, &painter).to_string().replace('<', "\\u003c");
    let parts = [
        header(report, back, &name, &label),
        tag("main", format!("\n{main}")),
        foot(report),
        DIALOG.into(),
        tag("script type=\"application/json\" id=\"data\"", data),
    ];
    let title = format!("{name}: {label}");
    document(&title, &mark(report, None), &parts.join("\n"))
}

fn header(report: &Report, back: &str, name: &str, label: &str) -> String {
    let about = report.subject.about.as_deref().map(escaped);
    let link = tag(&format!("a href=\"{back}\""), "All sets");
    let lines = [
        tag("nav", link),
        tag("h1", name),
        about.map_or(String::new(), |about| tag("p", about)),
        tag("p class=\"label\"", label),
        promise(&report.count),
    ];
    tag("header", lines.join("\n"))
}

/// What is promised of plain figures, near the number of them.
pub fn promise(count: &Count) -> String {
    let words = count.promise().map(|words| format!("Plain: {words}."));
    words.map_or(String::new(), |words| tag("p class=\"soft\"", words))
}

/// A whole document around its body.
pub fn document(title: &str, mark: &str, body: &str) -> String {
    format!(
        "<!doctype html>
<html lang=\"en\"><head><meta charset=\"utf-8\">
<!-- {mark} -->
<meta name=\"viewport\" content=\"width=device-width, initial-scale=1\">
<title>{title}</title>
<style>{STYLE}
{CSS}</style></head>
<body>
{body}
<script>{SCRIPT}</script>
</body></html>
"
    )
}

fn notes(report: &Report) -> String {
    let note = |note: &Note| {
        let (words, change) = (escaped(&note.words), escaped(&note.change));
        tag("li", format!("{words}; <em>what to do:</em> {change}")) + "\n"
    };
    let list: String = report.notes.list.iter().map(note).collect();
    let inside = match list.is_empty() {
        true => tag("p", "None."),
        false => tag("ul", list),
    };
    section("notes", "Notes", &inside)
}

fn figures(report: &Report, painter: &Painter) -> String {
    let sorted = [("entry", "Entry")]
        .into_iter()
        .chain(COLUMNS)
        .chain([("closes", "Closes")]);
    let heads: String = sorted.map(|(by, name)| head(by, "", name)).collect();
    let picture = tag("th scope=\"col\"", "Picture");
    let parts = tag("th scope=\"col\" class=\"words\"", "Parts, measured");
    let rows: String = (0..report.answer.entries.len())
        .map(|e| row(report, painter, e))
        .collect();
    let bounds: String = COLUMNS.iter().map(|(by, name)| bounds(by, name)).collect();
    let table = table(&format!("{picture}{heads}{parts}"), &rows);
    section(
        "figures",
        "Figures",
        &(filters(&(bounds + CLOSING)) + &table),
    )
}

/// Whether figures close in themselves, as a choice.
const CLOSING: &str = "<fieldset><legend>Closes</legend>\
<select name=\"closes\" aria-label=\"Closes in itself\">\
<option value=\"\">either</option><option value=\"1\">yes</option><option value=\"0\">no</option>\
</select></fieldset>";

/// The head of a column that sorts.
pub fn head(by: &str, class: &str, name: &str) -> String {
    let button = tag("button type=\"button\"", name);
    tag(&format!("th scope=\"col\" data-by=\"{by}\"{class}"), button)
}

/// A table that sorts, as wide as it needs.
pub fn table(heads: &str, rows: &str) -> String {
    let head = tag("thead", tag("tr", heads));
    let body = tag("tbody", format!("\n{rows}"));
    tag(
        "div class=\"wide\"",
        tag("table class=\"sorts\"", format!("{head}\n{body}")),
    )
}

/// Two fields for the bounds of a number.
pub fn bounds(by: &str, name: &str) -> String {
    let field = |side: &str, words: &str| {
        let named = format!("name=\"{by}.{side}\" aria-label=\"{name}, {words}\"");
        format!("<input type=\"number\" min=\"0\" {named} placeholder=\"{side}\">")
    };
    let (from, to) = (field("from", "at least"), field("to", "at most"));
    tag("fieldset", format!("<legend>{name}</legend>{from} {to}"))
}

/// A form of such fields, and the line that says how much is shown.
pub fn filters(fields: &str) -> String {
    let reset = tag(
        "span class=\"tools\"",
        tag("button type=\"reset\"", "Show all"),
    );
    let form = tag(
        "form aria-label=\"Which are shown\"",
        format!("{fields}{reset}"),
    );
    let shown = tag("p id=\"shown\" class=\"soft\" aria-live=\"polite\"", "");
    format!("{form}\n{shown}\n")
}

fn row(report: &Report, painter: &Painter, e: usize) -> String {
    let [points, edges, facets] = report.answer.summaries[e];
    let (look, parts) = (&report.looks[e], &report.parts);
    let (pieces, closes) = (look.pieces, u8::from(look.closes()));
    let number = number(&report.job, &report.answer.entries[e].figure);
    let words = escaped(&entry_words(parts, &parts.entries[e], report.job.rank));
    let named = format!("data-entry=\"{e}\" aria-label=\"Entry {e}, open large\"");
    let open = format!("button type=\"button\" class=\"open\" {named}");
    let said = if look.closes() { "yes" } else { "no" };
    let lasting = tag("small class=\"soft\"", number);
    let cells = [
        tag("td", tag(&open, painter.small(e))),
        tag("th scope=\"row\"", format!("{e}<br>{lasting}")),
        [points, edges, facets]
            .map(|count| tag("td", count))
            .concat(),
        tag("td", pieces),
        tag("td", said),
        tag("td class=\"words\"", words),
    ];
    let counts =
        format!("data-points=\"{points}\" data-edges=\"{edges}\" data-facets=\"{facets}\"");
    let seen = format!("data-pieces=\"{pieces}\" data-closes=\"{closes}\"");
    tag(
        &format!("tr data-entry=\"{e}\" {counts} {seen}"),
        cells.concat(),
    ) + "\n"
}

fn shapes(report: &Report) -> String {
    // Compound facets are drawn as their parts, and have no colour of their own.
    let key = |shape: usize| match shape < report.parts.used {
        true => {
            let class = colour::face(shape);
            let square = format!("<rect class=\"{class}\" width=\"100%\" height=\"100%\"/>");
            tag("svg class=\"key\" aria-hidden=\"true\"", square)
        }
        false => String::new(),
    };
    let shape = |shape: usize| {
        let key = key(shape);
        let words = escaped(&shape_words(&report.parts, shape));
        tag("li", format!("{key}{words}")) + "\n"
    };
    let list: String = (0..report.parts.told).map(shape).collect();
    section("shapes", "Shapes, measured", &tag("ul", list))
}

fn compounds(report: &Report) -> String {
    let compound = |[whole, first, second]: &[u32; 3]| {
        let words = format!("Entry {whole} is made of entries {first} and {second}.");
        tag("li", words) + "\n"
    };
    let list: String = report.answer.compounds.iter().map(compound).collect();
    match list.is_empty() {
        true => list,
        false => section("compounds", "Compounds", &tag("ul", list)),
    }
}

fn plain(report: &Report) -> String {
    let numbers = report.plain.as_deref().unwrap_or_default();
    match numbers.is_empty() {
        true => String::new(),
        false => section("plain", "Plain entries", &tag("p", spans(numbers))),
    }
}

/// Where the page comes from, and what of it is whose.
const WHOSE: &str = "Counts of points, edges and facets, and which entries are compounds, are the \
answer's; which are plain is what a second proved call writes. Notes, pieces, what closes in itself, lengths and angles are the host's own look.";

fn foot(report: &Report) -> String {
    let Source { engine, hash } = &report.source;
    let hash = tag("code style=\"overflow-wrap:anywhere\"", hash);
    let source = format!("Answered by: {engine}, command version {VERSION}. Job: sha256 {hash}");
    let lines = tag("p", source) + &tag("p", WHOSE);
    tag("footer class=\"soft\"", lines)
}

/// What is drawn large: places of points, faces with their shapes, edges.
fn data(report: &Report, painter: &Painter) -> Json {
    let whole = |x: usize| Json::Number(x as i64);
    let point = |p: &[f64; 3]| Json::List(p.map(|x| Json::Float((x * 1e6).round() / 1e6)).into());
    let points = painter.places().iter().map(point).collect();
    let entry = |e: usize| {
        let way = |way: &Vec<u32>| Json::List(way.iter().map(|&v| whole(v as usize)).collect());
        let faces = painter.faces(e).into_iter().map(|(_, shape, ways)| {
            Json::List(vec![
                whole(shape),
                Json::List(ways.iter().map(way).collect()),
            ])
        });
        let edges = painter
            .edges(e)
            .into_iter()
            .map(|(_, _, ends)| Json::List(ends.map(|end| whole(end as usize)).into()));
        let parts = &report.parts;
        Json::Object(vec![
            ("faces", Json::List(faces.collect())),
            ("edges", Json::List(edges.collect())),
            (
                "words",
                Json::Text(entry_words(parts, &parts.entries[e], report.job.rank)),
            ),
        ])
    };
    let entries = (0..report.answer.entries.len()).map(entry).collect();
    Json::Object(vec![
        ("points", Json::List(points)),
        ("entries", Json::List(entries)),
    ])
}
