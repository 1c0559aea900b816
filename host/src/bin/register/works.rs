//! Forms with several files for a set, in a folder: a file for each figure, with the
//! set's name in front.

use std::path::{Path, PathBuf};

use facetings_host::report::Report;
use facetings_host::workshop::index::{self, Row};
use facetings_host::workshop::picture::Painter;
use facetings_host::workshop::{contact, html, is_ours, off, sheet};

use crate::options::{Form, Options};
use crate::outcome::Outcome;
use crate::output;
use crate::places::{holds_vertex_set, make_folder};

/// What a file's name has behind the set's, and the file.
type Work = (String, String);

/// The files of a report in this form.
fn works(options: &Options, place: &Path, report: &Report) -> Vec<Work> {
    let each = |files: Vec<String>, ending: &str| -> Vec<Work> {
        let name = |(e, file)| (format!("-{e}{ending}"), file);
        files.into_iter().enumerate().map(name).collect()
    };
    match options.form {
        Form::Off => each(off::files(report), ".off"),
        Form::Svg => {
            let painter = Painter::of(report);
            let pictures = (0..report.answer.entries.len()).map(|e| painter.file(e));
            let mut works = each(pictures.collect(), ".svg");
            works.push((".svg".into(), contact::sheet(report, &painter)));
            works
        }
        Form::Sheet => sheets(options, report),
        Form::Html => {
            let back = index::back(&below(options, place));
            vec![(".html".into(), html::page(report, &back))]
        }
        Form::Page | Form::Json | Form::Raw | Form::Csv => Vec::new(),
    }
}

/// Two files for each figure that has something to cut.
fn sheets(options: &Options, report: &Report) -> Vec<Work> {
    let sheet = |e: usize| {
        let [svg, dxf] = sheet::files(report, e, options.size)?;
        Some([
            (format!("-{e}-sheet.svg"), svg),
            (format!("-{e}-sheet.dxf"), dxf),
        ])
    };
    let entries = 0..report.answer.entries.len();
    entries.filter_map(sheet).flatten().collect()
}

/// The endings of files that go by an entry's number.
fn numbered(form: Form) -> &'static [&'static str] {
    match form {
        Form::Off => &[".off"],
        Form::Svg => &[".svg"],
        Form::Sheet => &["-sheet.svg", "-sheet.dxf"],
        Form::Html | Form::Page | Form::Json | Form::Raw | Form::Csv => &[],
    }
}

/// The endings of files that a set has one of.
fn single(form: Form) -> &'static [&'static str] {
    match form {
        Form::Svg => &[".svg"],
        Form::Html => &[".html"],
        Form::Off | Form::Sheet | Form::Page | Form::Json | Form::Raw | Form::Csv => &[],
    }
}

/// Puts the files of a set into its folder, and takes away what an earlier run left
/// of figures that are no more. Nothing is written where a file is not to be replaced.
pub fn store(options: &Options, place: &Path, report: Option<&Report>) -> Result<(), String> {
    let works = report.map_or_else(Vec::new, |report| works(options, place, report));
    let files: Vec<PathBuf> = works.iter().map(|(name, _)| behind(place, name)).collect();
    if let Some(kept) = files.iter().find(|file| is_kept(file)) {
        return Err(format!("{} is a vertex set itself", kept.display()));
    }
    place.parent().map_or(Ok(()), make_folder)?;
    for (file, (_, text)) in files.iter().zip(&works) {
        output::save(file, text.as_bytes())?;
    }
    let figures = report.map_or(0, |report| report.answer.entries.len());
    let gone = single(options.form).iter().filter(|_| report.is_none());
    for file in gone.map(|ending| behind(place, ending)) {
        clear(&file)?;
    }
    for ending in numbered(options.form) {
        let file = |entry: usize| behind(place, &format!("-{entry}{ending}"));
        let mut later = (figures..).map(file);
        while later.next().map_or(Ok(false), |file| clear(&file))? {}
    }
    Ok(())
}

/// Removes a file if an earlier run made it, and says whether it did.
fn clear(file: &Path) -> Result<bool, String> {
    let ours = std::fs::read(file).is_ok_and(|bytes| is_ours(&bytes));
    if ours {
        output::remove(file)?;
    }
    Ok(ours)
}

/// The place of a set below the folder that was named.
fn below(options: &Options, place: &Path) -> String {
    let folder = options.place.as_deref().unwrap_or(Path::new(""));
    let below = place.strip_prefix(folder).unwrap_or(place);
    below.to_string_lossy().into_owned()
}

/// What the index says of a set.
pub fn row(options: &Options, place: &Path, name: &str, found: &Outcome) -> Row {
    match found.report() {
        Some(report) => Row::answered(report, below(options, place)),
        None => Row::without(name, found.line()),
    }
}

/// A vertex set that was not made here is never written over.
fn is_kept(file: &Path) -> bool {
    let ours = || std::fs::read(file).is_ok_and(|bytes| is_ours(&bytes));
    file.is_file() && holds_vertex_set(file) && !ours()
}

fn behind(place: &Path, name: &str) -> PathBuf {
    let mut file = place.as_os_str().to_owned();
    file.push(name);
    file.into()
}
