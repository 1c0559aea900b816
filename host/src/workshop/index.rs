//! The page that leads to the pages of sets.

use std::fmt::Write;

use super::html::{bounds, document, filters, head, promise, table};
use super::markup::{escaped, tag};
use super::picture::Painter;
use super::MARK;
use crate::report::label::{counted, Count};
use crate::report::{Report, VERSION};

/// A set on the index.
pub struct Row {
    /// Its name.
    pub name: String,
    /// The page's place below the index, without its ending, where there is a page.
    pub place: Option<String>,
    /// Its label, or why it has none.
    pub line: String,
    /// What its label counts.
    pub count: Count,
    /// A small picture of the first.
    pub small: String,
}

impl Row {
    /// A set with a page.
    pub fn answered(report: &Report, place: String) -> Row {
        Row {
            name: report.subject.name.clone(),
            place: Some(place),
            line: report.label(),
            count: report.count,
            small: match report.count.figures {
                0 => String::new(),
                _ => Painter::of(report).small(0),
            },
        }
    }

    /// A set without a page, and why.
    pub fn without(name: &str, line: String) -> Row {
        Row {
            name: name.into(),
            place: None,
            line,
            count: Count::default(),
            small: String::new(),
        }
    }
}

/// From a page of a set to the index.
pub fn back(place: &str) -> String {
    "../".repeat(place.matches('/').count()) + "index.html"
}

/// The whole index.
pub fn index(rows: &[Row]) -> String {
    let title = counted(rows.len(), "vertex set", "vertex sets");
    let heads = [
        tag("th scope=\"col\"", "Picture"),
        head("name", " class=\"words\"", "Set"),
        head("figures", "", "Figures"),
        tag("th scope=\"col\" class=\"words\"", "Label"),
    ];
    let lines: String = rows.iter().map(line).collect();
    let table = table(&heads.concat(), &lines);
    let all = rows
        .iter()
        .fold(Count::default(), |sum, row| sum.plus(row.count));
    let header = tag("header", tag("h1", &title) + &promise(&all));
    let main = tag("main", filters(&bounds("figures", "Figures")) + &table);
    document(
        &title,
        &format!("{MARK}, version {VERSION}"),
        &format!("{header}\n{main}"),
    )
}

fn line(row: &Row) -> String {
    let (name, figures) = (escaped(&row.name), row.count.figures);
    let link = match &row.place {
        Some(place) => tag(&format!("a href=\"{}.html\"", address(place)), &name),
        None => name.clone(),
    };
    let cells = [
        tag("td", &row.small),
        tag("th scope=\"row\" class=\"words\"", link),
        tag("td", figures),
        tag("td class=\"words\"", escaped(&row.line)),
    ];
    let open = format!("tr data-name=\"{name}\" data-figures=\"{figures}\"");
    tag(&open, cells.concat()) + "\n"
}

/// A place as an address: all but letters, digits and a few signs by their bytes.
fn address(place: &str) -> String {
    let mut address = String::new();
    for byte in place.bytes() {
        match byte {
            b'a'..=b'z' | b'A'..=b'Z' | b'0'..=b'9' | b'-' | b'.' | b'_' | b'/' => {
                address.push(char::from(byte))
            }
            other => {
                let _ = write!(address, "%{other:02X}");
            }
        }
    }
    address
}

#[cfg(test)]
mod tests {
    use super::*;

    #[test]
    fn addresses_keep_no_sign_that_means_something_else() {
        assert_eq!(address("a b/c#1?.txt, x"), "a%20b/c%231%3F.txt%2C%20x");
        assert_eq!(address("é"), "%C3%A9");
        assert_eq!(
            (back("cube"), back("a/b/cube")),
            ("index.html".into(), "../../index.html".into())
        );
    }
}
