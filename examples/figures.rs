//! The facetings of a square, from Rust, by the safe wrapper in host/wrapper.
//!
//!     ./library register
//!     cd host && cargo run --release --example figures

use std::error::Error;
use std::process::ExitCode;

use faceting_register::bounds::MOST_ROWS;
use faceting_register::{answer, rows, Answer, Entry, Job, Register};

/// A square with its eight symmetries, from two mirrors; docs/FORMAT.md has its bytes.
fn square() -> Job {
    let points = [[0.0, 0.0], [1.0, 0.0], [1.0, 1.0], [0.0, 1.0]];
    let mut job = Job::usual(3, points.map(Vec::from).to_vec());
    job.rows = rows::closure(4, &[vec![0, 3, 2, 1], vec![1, 0, 3, 2]], MOST_ROWS);
    job
}

fn parts(entry: &Entry) -> String {
    let part = |(orbit, facet): &(u32, u32)| format!(" {orbit}.{facet}");
    entry.list.iter().map(part).collect()
}

/// Asks with a longer buffer as often as it takes, and reads the answer.
fn figures(job: &Job) -> Result<Answer, Box<dyn Error>> {
    let mut register = Register::open()?;
    Ok(answer(&mut register, job)?)
}

fn main() -> ExitCode {
    match figures(&square()) {
        Ok(answer) => {
            println!("figures: {}", answer.entries.len());
            for (e, entry) in answer.entries.iter().enumerate() {
                println!("{e}:{}", parts(entry));
            }
            ExitCode::SUCCESS
        }
        Err(why) => {
            eprintln!("figures: {why}");
            ExitCode::FAILURE
        }
    }
}
