//! The files that results are written to.

use std::collections::{HashMap, HashSet};
use std::fs;
use std::path::{Path, PathBuf};

use facetings_host::format::vertex_set::{self, ENDINGS};

use crate::inputs::{Input, Named};
use crate::options::{Form, Options};

/// The page of all sets, without its ending.
pub const INDEX: &str = "index";

/// The file of each set in the folder that was named.
pub fn places(options: &Options, sets: &[Named]) -> Result<Option<Vec<PathBuf>>, String> {
    let Some(folder) = options.place.as_ref().filter(|_| options.form != Form::Csv) else {
        return match options.form {
            Form::Raw => Err("the bytes of several answers need a folder: -o PLACE".into()),
            _ => Ok(None),
        };
    };
    let ending = ending(options.form);
    let mut taken = HashSet::new();
    let names = names(sets).into_iter().map(|name| {
        let name = format!("{name}{ending}");
        if options.form == Form::Html && name == INDEX {
            return Err("a page for 'index' would be written over by that of all sets".into());
        }
        match taken.insert(name.clone()) {
            true => Ok(folder.join(name)),
            false => Err(format!("two sets would both be written to {name}")),
        }
    });
    names.collect::<Result<_, String>>().map(Some)
}

/// Of several files of a set each has its own ending.
fn ending(form: Form) -> &'static str {
    match form {
        Form::Page => ".page",
        Form::Json => ".json",
        Form::Raw => ".answer",
        Form::Off | Form::Svg | Form::Html | Form::Csv | Form::Sheet => "",
    }
}

/// The names of the sets without the endings of their files, as far as that leaves
/// them different.
fn names(sets: &[Named]) -> Vec<String> {
    let short: Vec<String> = sets.iter().map(|set| name(set, stem(&set.file))).collect();
    let mut count: HashMap<&str, usize> = HashMap::new();
    for name in &short {
        *count.entry(name).or_default() += 1;
    }
    let chosen = |(set, short): (&Named, &String)| match count[short.as_str()] {
        1 => short.clone(),
        _ => name(set, &set.file),
    };
    sets.iter().zip(&short).map(chosen).collect()
}

/// A set of several in a text has its own name behind the text's.
fn name(set: &Named, file: &str) -> String {
    match &set.set.part {
        None => file.into(),
        Some(part) => format!("{}, {}", set.file, part.replace('/', "_")),
    }
}

fn stem(file: &str) -> &str {
    let without = |ending: &&str| file.strip_suffix(ending)?.strip_suffix('.');
    ENDINGS.iter().find_map(without).unwrap_or(file)
}

/// Makes a folder and those above it.
pub fn make_folder(folder: &Path) -> Result<(), String> {
    let made = fs::create_dir_all(folder);
    made.map_err(|error| format!("cannot make the folder {}: {error}", folder.display()))
}

/// No result is written over a vertex set: neither over one of this call nor over
/// another that happens to have the name.
pub fn spared(inputs: &[Input], places: &[PathBuf]) -> Result<(), String> {
    let real = |path: &Path| fs::canonicalize(path).ok();
    let files: HashSet<PathBuf> = inputs.iter().filter_map(|i| real(&i.file)).collect();
    let taken = |place: &&PathBuf| {
        let of_this_call = real(place).is_some_and(|place| files.contains(&place));
        place.is_file() && (of_this_call || holds_vertex_set(place))
    };
    match places.iter().find(taken) {
        Some(place) => Err(format!("{} is a vertex set itself", place.display())),
        None => Ok(()),
    }
}

/// A file that cannot be read is not known to be none.
pub fn holds_vertex_set(place: &Path) -> bool {
    fs::read(place).map_or(true, |bytes| vertex_set::is_one(&bytes))
}
