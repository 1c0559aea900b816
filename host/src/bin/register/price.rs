//! Quotes for the entries of sets of rank 4, in place of answers: total, sizes, joints and
//! discount, all in the function's own numbers.

use std::fs;
use std::path::Path;

use faceting_register::quote::{Counter, Made, NoQuote, Quote, Tariff};
use facetings_host::format::tariff;
use facetings_host::format::vertex_set::VertexSet;
use facetings_host::report::label::counted;

use crate::inputs;
use crate::options::Options;
use crate::outcome::Status;
use crate::{complain, output};

/// Prints a quote for every entry of every set; a set that has none is told of and does
/// not hold up the others.
pub fn run(options: &Options) -> Status {
    let tariff = match options.price.as_deref().map(read) {
        Some(Ok(tariff)) => tariff,
        Some(Err(words)) => return complain(&words, Status::Bad),
        None => return Status::Bad,
    };
    let mut counter = match Counter::open() {
        Ok(counter) => counter,
        Err(absent) => return complain(&absent.to_string(), Status::Absent),
    };
    let mut worst = Status::Answered;
    for input in inputs::inputs(&options.inputs) {
        for named in inputs::read(&input) {
            worst = worst.max(set(&mut counter, &named.set, &tariff));
        }
    }
    worst
}

/// The tariff in a file, or what is wrong with it.
pub fn read(file: &Path) -> Result<Tariff, String> {
    let name = file.display();
    let text = fs::read_to_string(file).map_err(|error| format!("{name}: {error}"))?;
    tariff::read(&text).map_err(|words| format!("{name}: {words}"))
}

/// The quotes of one set, some lines each, and a line for all of them.
fn set(counter: &mut Counter, set: &VertexSet, tariff: &Tariff) -> Status {
    let name = &set.subject.name;
    let job = match &set.job {
        Ok(job) => job,
        Err(words) => return complain(&format!("{name}: {words}"), Status::Bad),
    };
    for entry in 0.. {
        let quoted = counter.quote(job, entry, tariff);
        let quoted = quoted.and_then(|quote| Ok((quote, counter.made(job, entry)?)));
        let line = match quoted {
            Ok((quote, made)) => format!(
                "{name}: entry {entry}: {} pence\n{}",
                quote.total,
                lines(&quote, &made, tariff)
            ),
            Err(NoQuote::Entry) => {
                let quotes = counted(entry as usize, "entry", "entries");
                return print(&format!("{name}: {quotes}\n"), Status::Answered);
            }
            Err(why) => return complain(&format!("{name}: {why}"), Status::Refused),
        };
        if print(&line, Status::Answered) != Status::Answered {
            break;
        }
    }
    Status::Bad
}

fn print(text: &str, status: Status) -> Status {
    match output::print(text.as_bytes()) {
        Ok(()) => status,
        Err(words) => complain(&words, Status::Bad),
    }
}

/// A line for each size that occurs, one for the joints and one for the discount.
fn lines(quote: &Quote, made: &Made, tariff: &Tariff) -> String {
    let mut lines = String::new();
    let priced = quote.subtotals.iter().zip(&tariff.prices);
    for (size, (&many, (subtotal, price))) in (1..).zip(made.polygons.iter().zip(priced)) {
        if many > 0 {
            let polygons = counted(many as usize, "polygon", "polygons");
            let edges = counted(size, "edge", "edges");
            lines += &format!("  {polygons} of {edges} at {price}: {subtotal}\n");
        }
    }
    let cut: u64 = quote.subtotals.iter().sum();
    let joined = made.joints * u64::from(tariff.joint);
    let joints = counted(made.joints as usize, "joint", "joints");
    lines += &format!("  {joints} at {}: {joined}\n", tariff.joint);
    let before = cut + joined;
    lines + &format!("  discount: {} thousandths of {before}\n", tariff.discount)
}
