//! From the names on the command line to vertex sets: files, folders with all that
//! is below them, standard input.

use std::collections::HashMap;
use std::fs;
use std::io::{self, Read};
use std::path::{Component, Path, PathBuf};

use facetings_host::format::vertex_set::{self, VertexSet, ENDINGS};

use crate::order::natural;

/// More bytes than any catalogue has: an endless file is not read to its end.
const MOST: u64 = 1 << 26;

/// A file to read, or a folder that gives none.
pub struct Input {
    /// The way to it, as the command line says it.
    pub file: PathBuf,
    /// What pages call it: its name, with the folders between it and the named one.
    pub name: String,
    /// Why there is nothing to read.
    fault: Option<String>,
}

/// A vertex set, and what its file is called.
pub struct Named {
    /// The set.
    pub set: VertexSet,
    /// The name of its file.
    pub file: String,
}

/// What the names stand for; a folder for its vertex sets and those of the folders
/// below it. Two that would be called the same are told apart by the way to them.
pub fn inputs(names: &[PathBuf]) -> Vec<Input> {
    let mut inputs = Vec::new();
    for name in names {
        match name.is_dir() {
            true => folder(name, &mut inputs),
            false => inputs.push(Input::new(name, called(name), None)),
        }
    }
    tell_apart(&mut inputs);
    inputs
}

impl Input {
    fn new(file: &Path, name: String, fault: Option<String>) -> Input {
        let file = file.into();
        Input { file, name, fault }
    }
}

fn folder(name: &Path, inputs: &mut Vec<Input>) {
    let before = inputs.len();
    search(name, "", inputs);
    if inputs.len() == before {
        let [first, second, third] = ENDINGS;
        let fault = format!("no file in it or below it ends in .{first}, .{second} or .{third}");
        inputs.push(Input::new(name, called(name), Some(fault)));
    }
}

/// All vertex sets from here down, in the order of their names. A link to a folder
/// is not followed, since it may lead back up; what begins with a dot is passed over.
fn search(folder: &Path, below: &str, inputs: &mut Vec<Input>) {
    let mut names = match listed(folder) {
        Ok(names) => names,
        Err(error) => {
            let name = match below.strip_suffix('/') {
                Some(name) => name.into(),
                None => called(folder),
            };
            return inputs.push(Input::new(folder, name, Some(error.to_string())));
        }
    };
    names.sort_by(|(one, _), (other, _)| natural(one, other));
    for (name, path) in names {
        let called = format!("{below}{name}");
        if name.starts_with('.') {
            continue;
        } else if path.is_dir() && !path.is_symlink() {
            search(&path, &format!("{called}/"), inputs);
        } else if is_vertex_set(&path) {
            inputs.push(Input::new(&path, called, None));
        }
    }
}

fn listed(folder: &Path) -> io::Result<Vec<(String, PathBuf)>> {
    let entry = |entry: io::Result<fs::DirEntry>| {
        let entry = entry?;
        let name = entry.file_name().to_string_lossy().into_owned();
        Ok((name, entry.path()))
    };
    fs::read_dir(folder)?.map(entry).collect()
}

fn is_vertex_set(file: &Path) -> bool {
    let ending = file.extension().and_then(|ending| ending.to_str());
    let ending = ending.map(str::to_lowercase);
    file.is_file() && ending.is_some_and(|ending| ENDINGS.contains(&ending.as_str()))
}

/// Those that share a name are called by the whole way that was given.
fn tell_apart(inputs: &mut [Input]) {
    let mut count: HashMap<String, usize> = HashMap::new();
    for input in inputs.iter() {
        *count.entry(input.name.clone()).or_default() += 1;
    }
    for input in inputs.iter_mut().filter(|input| count[&input.name] > 1) {
        let steps = input.file.components().filter_map(|step| match step {
            Component::Normal(step) => Some(step.to_string_lossy()),
            _ => None,
        });
        input.name = steps.collect::<Vec<_>>().join("/");
    }
}

/// The sets of a file; one that cannot be read gives a set without a job.
pub fn read(input: &Input) -> Vec<Named> {
    let bytes = match &input.fault {
        Some(fault) => Err(fault.clone()),
        None => contents(&input.file).map_err(|error| error.to_string()),
    };
    let sets = match bytes {
        Ok(bytes) => vertex_set::read(&input.name, &bytes),
        Err(error) => vec![VertexSet::bad(
            &input.name,
            format!("cannot be read: {error}"),
        )],
    };
    let file = &input.name;
    sets.into_iter()
        .map(|set| Named {
            set,
            file: file.clone(),
        })
        .collect()
}

fn contents(file: &Path) -> io::Result<Vec<u8>> {
    let source: Box<dyn Read> = match is_standard_input(file) {
        true => Box::new(io::stdin()),
        false => Box::new(fs::File::open(file)?),
    };
    let mut bytes = Vec::new();
    source.take(MOST + 1).read_to_end(&mut bytes)?;
    match bytes.len() as u64 > MOST {
        true => Err(io::Error::other("it is too long for vertex sets")),
        false => Ok(bytes),
    }
}

fn is_standard_input(file: &Path) -> bool {
    file.as_os_str() == "-"
}

/// The last step of the way to a file or folder.
fn called(file: &Path) -> String {
    if is_standard_input(file) {
        return "standard input".into();
    }
    let name = file.file_name().unwrap_or(file.as_os_str());
    name.to_string_lossy().into_owned()
}
