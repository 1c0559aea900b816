//! A job's rows beside the symmetries that its points have.

use std::collections::BTreeSet;

use super::distances::Distances;
use super::report::counted;
use super::{Kind, Symmetry};
use faceting_register::job::{is_permutation, Job};

/// How many of which there are.
#[derive(Clone, Copy, Debug, PartialEq, Eq)]
pub struct Comparison {
    /// Different rows of the job.
    pub rows: usize,
    /// Those of them that are symmetries of the points.
    pub kept: usize,
    /// Those of them that are turns.
    pub turned: usize,
    /// Symmetries that the points have.
    pub full: u64,
    /// Turns among these.
    pub turns: u64,
}

/// The rows of a job beside what was found; nothing where the job is refused for
/// its points or rows.
pub fn comparison(job: &Job) -> Option<Comparison> {
    let symmetry = Symmetry::of(job)?;
    let points = job.points.len();
    let sound = |row: &Vec<u8>| row.len() == points && is_permutation(row);
    if !job.rows.iter().all(sound) {
        return None;
    }
    let distances = Distances::of(job);
    let rows: BTreeSet<&Vec<u8>> = job.rows.iter().collect();
    let kept = rows.iter().filter(|row| distances.are_kept(row));
    let turned = kept.clone().filter(|row| symmetry.is_turn(row));
    Some(Comparison {
        rows: rows.len(),
        kept: kept.clone().count(),
        turned: turned.count(),
        full: symmetry.group(Kind::Full).order,
        turns: symmetry.group(Kind::Turns).order,
    })
}

impl Comparison {
    /// What is to be said of it, and what to do: nothing where the rows are all the
    /// symmetries, all the turns, or the identity alone, which asks for every figure.
    pub fn note(&self) -> Option<(String, &'static str)> {
        let rows = self.rows;
        let known = match self.full {
            1 => "which have none but the identity".into(),
            _ => format!("which have {}", counted(self.full, self.turns)),
        };
        if self.kept < rows {
            let wrong = match rows - self.kept {
                1 => format!("1 of the {rows} rows is no symmetry"),
                more => format!("{more} of the {rows} rows are no symmetries"),
            };
            let words = format!("{wrong} of the points, {known}");
            return Some((words, INSTEAD));
        }
        let all_turns = self.kept == self.turned && self.kept as u64 == self.turns;
        if rows == 1 || all_turns || self.kept as u64 == self.full {
            return None;
        }
        let words = format!("the rows are {rows} of the symmetries of the points, {known}");
        Some((words, MORE))
    }
}

const INSTEAD: &str = "correct the rows, or the points that they do not fit; './register --symmetry' prints the symmetries that the points have";
const MORE: &str = "nothing, if figures of less symmetry are wanted; else write 'symmetry full' or 'symmetry turns' in place of the rows";
