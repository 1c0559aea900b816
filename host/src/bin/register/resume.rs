//! A run that was cut short goes on: a set is passed over whose result is there already,
//! of the same job, by the same engine and version.

use std::path::Path;

use facetings_host::format::vertex_set::VertexSet;
use facetings_host::report::hash::sha256;
use facetings_host::report::VERSION;

use crate::options::{Form, Options};

/// Whether the result of a set is at its place. A refusal is not: it has a status of
/// its own.
pub fn is_there(options: &Options, place: &Path, engine: &str, set: &VertexSet) -> bool {
    let (true, Ok(job)) = (options.resume, &set.job) else {
        return false;
    };
    let text = std::fs::read_to_string(place).unwrap_or_default();
    says(options.form, &text, engine, &sha256(job))
}

/// Whether a page or a line of JSON is whole and says that it is of this job.
fn says(form: Form, text: &str, engine: &str, hash: &str) -> bool {
    let source = match form {
        Form::Page => {
            format!("\nAnswered by: {engine}, command version {VERSION}\nJob: sha256 {hash}\n")
        }
        _ => format!("\"engine\":\"{engine}\",\"version\":\"{VERSION}\",\"job\":\"{hash}\""),
    };
    let refused = form == Form::Json && text.contains("\"result\":\"refused\"");
    text.ends_with('\n') && text.contains(&source) && !refused
}
