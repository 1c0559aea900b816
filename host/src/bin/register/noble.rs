//! A set with a package: its answer, or its refusal, in the forms that a set has by
//! itself.

use std::fs;
use std::path::Path;

use faceting_register::Engine;
use facetings_host::format::package;

use crate::inputs::{self, Named};
use crate::options::Options;
use crate::outcome::{noble_outcome, Status};
use crate::places::spared;
use crate::{complain, work};

/// Answers the one set that the options name, with the package that they name.
pub fn run(options: &Options) -> Status {
    let mut engine = match work::open(options.original) {
        Ok(engine) => engine,
        Err(why) => return complain(&why.to_string(), Status::Absent),
    };
    let done = answer(options, engine.as_mut());
    done.unwrap_or_else(|words| complain(&words, Status::Bad))
}

fn answer(options: &Options, engine: &mut dyn Engine) -> Result<Status, String> {
    let file = options.noble.as_deref().unwrap_or(Path::new(""));
    let package = read(file)?;
    if options.place.as_deref() == Some(file) {
        return Err(format!("{} is the package itself", file.display()));
    }
    let inputs = inputs::inputs(&options.inputs);
    let sets: Vec<Named> = inputs.iter().flat_map(inputs::read).collect();
    let [Named { set, .. }] = &sets[..] else {
        return Err("'--noble' takes one vertex set".into());
    };
    spared(&inputs, options.place.as_slice())?;
    let found = noble_outcome(engine, set, options, &package);
    work::deliver(options, set, found)
}

/// The bytes of the package in a file.
fn read(file: &Path) -> Result<Vec<u8>, String> {
    let name = file.display();
    let bytes = fs::read(file).map_err(|error| format!("{name}: {error}"))?;
    package::read(&bytes).map_err(|words| format!("{name}: {words}"))
}
