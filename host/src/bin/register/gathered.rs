//! What is gathered from set to set, and written when all are done: the index of pages,
//! and the catalogue.

use std::path::Path;

use facetings_host::catalogue::against::against;
use facetings_host::catalogue::csv::{self, Line, ENTRY, SET};
use facetings_host::catalogue::merge::merge;
use facetings_host::workshop::index::{index, Row};

use crate::options::{Form, Options};
use crate::order::natural;
use crate::outcome::Outcome;
use crate::places::INDEX;
use crate::{output, works};

/// A part of what is gathered: of one set, or of several.
#[derive(Default)]
pub struct Gathered {
    rows: Vec<Row>,
    lines: Vec<Line>,
}

impl Gathered {
    /// What one set gives.
    pub fn of(options: &Options, place: Option<&Path>, name: &str, found: &Outcome) -> Gathered {
        let mut gathered = Gathered::default();
        match (options.form, place, found.report()) {
            (Form::Html, Some(place), _) => {
                gathered.rows.push(works::row(options, place, name, found))
            }
            (Form::Csv, _, Some(report)) => gathered.lines = csv::lines(report),
            _ => {}
        }
        gathered
    }

    /// With what another set gave.
    pub fn extend(&mut self, other: Gathered) {
        self.rows.extend(other.rows);
        self.lines.extend(other.lines);
    }

    /// Writes it: the index beside the pages, the catalogue where it was asked for.
    pub fn finish(self, options: &Options, older: Catalogues) -> Result<(), String> {
        let folder = options.place.as_deref().unwrap_or(Path::new(""));
        match options.form {
            Form::Html => {
                let file = folder.join(format!("{INDEX}.html"));
                output::save(&file, index(&self.rows).as_bytes())
            }
            Form::Csv => catalogue(options, self.lines, older),
            _ => Ok(()),
        }
    }
}

/// Catalogues that were named: those to put together, and the older one.
#[derive(Default)]
pub struct Catalogues {
    merged: Vec<Vec<Line>>,
    old: Option<Vec<Line>>,
}

impl Catalogues {
    /// Those among the inputs and the one behind '--against'.
    pub fn read(options: &Options) -> Result<Catalogues, String> {
        if options.form != Form::Csv {
            return Ok(Catalogues::default());
        }
        let named = options.inputs.iter().filter(|file| is_catalogue(file));
        Ok(Catalogues {
            merged: named.map(|file| read(file)).collect::<Result<_, _>>()?,
            old: options.against.as_deref().map(read).transpose()?,
        })
    }
}

/// A catalogue by its name; a folder stands for none.
pub fn is_catalogue(file: &Path) -> bool {
    let ending = file.extension().and_then(|ending| ending.to_str());
    ending.is_some_and(|ending| ending.eq_ignore_ascii_case("csv"))
}

fn read(file: &Path) -> Result<Vec<Line>, String> {
    let name = file.display();
    let text = std::fs::read_to_string(file).map_err(|e| format!("{name}: cannot be read: {e}"))?;
    csv::read(&text).map_err(|words| format!("{name}: {words}"))
}

/// The table goes to its place; a comparison to standard output, in place of the table
/// where that has none.
fn catalogue(options: &Options, lines: Vec<Line>, named: Catalogues) -> Result<(), String> {
    let mut lines = match named.merged.is_empty() {
        true => lines,
        false => merge([named.merged, vec![lines]].concat())?,
    };
    let entry = |line: &Line| line[ENTRY].parse::<usize>().unwrap_or(usize::MAX);
    lines.sort_by(|a, b| natural(&a[SET], &b[SET]).then_with(|| entry(a).cmp(&entry(b))));
    let table = csv::write(&lines);
    match (&options.place, named.old) {
        (Some(place), old) => {
            output::save(place, table.as_bytes())?;
            old.map_or(Ok(()), |old| {
                output::print(against(&old, &lines).as_bytes())
            })
        }
        (None, Some(old)) => output::print(against(&old, &lines).as_bytes()),
        (None, None) => output::print(table.as_bytes()),
    }
}
