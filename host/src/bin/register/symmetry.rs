//! The symmetries that are found in sets, in place of answers.

use facetings_host::format::vertex_set::VertexSet;
use facetings_host::symmetry::report;

use crate::inputs;
use crate::options::Options;
use crate::outcome::Status;
use crate::{complain, output};

/// Prints the symmetries of every set; one that has none to look at is told of and
/// does not hold up the others.
pub fn run(options: &Options) -> Status {
    let mut worst = Status::Answered;
    for input in inputs::inputs(&options.inputs) {
        for named in inputs::read(&input) {
            let printed = found(&named.set).and_then(|text| output::print(text.as_bytes()));
            if let Err(words) = printed {
                worst = complain(&words, Status::Bad);
            }
        }
    }
    worst
}

fn found(set: &VertexSet) -> Result<String, String> {
    let name = &set.subject.name;
    match (set.symmetry(), &set.job) {
        (Some(symmetry), _) => Ok(report(name, &symmetry)),
        (None, Err(words)) => Err(format!("{name}: {words}")),
        (None, Ok(_)) => Err(format!(
            "{name}: symmetries are looked for among 2 to 20 points of finite numbers"
        )),
    }
}
