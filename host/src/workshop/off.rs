//! A figure as an OFF file, for programs that draw and turn polyhedra: the points as
//! given, and a face for each closed way of its polygons.

use std::fmt::Write;

use faceting_register::{Entry, Job};

use super::mark;
use crate::parts::cycles::Cycle;
use crate::report::parts::ways;
use crate::report::Report;

/// One file for each entry, in their order.
pub fn files(report: &Report) -> Vec<String> {
    let entries = report.answer.entries.iter().enumerate();
    entries.map(|(e, entry)| file(report, e, entry)).collect()
}

fn file(report: &Report, e: usize, entry: &Entry) -> String {
    let job = &report.job;
    let mut text = head(job);
    let (faces, open) = faces(job.rank, entry);
    let edges = entry.figure.ranks.get(2).map_or(0, Vec::len);
    let _ = writeln!(text, "# {}", mark(report, Some(e)));
    if open > 0 {
        let _ = writeln!(
            text,
            "# {open} of its facets do not close and have no face here."
        );
    }
    let _ = writeln!(text, "{} {} {edges}", job.points.len(), faces.len());
    for point in &job.points {
        let numbers: Vec<String> = point.iter().map(|x| format!("{x:?}")).collect();
        let _ = writeln!(text, "{}", numbers.join(" "));
    }
    for face in &faces {
        let points: Vec<String> = face.iter().map(u32::to_string).collect();
        let _ = writeln!(text, "{} {}", face.len(), points.join(" "));
    }
    text
}

/// The first line, which says how many coordinates a point has where it is not three.
fn head(job: &Job) -> String {
    match job.dimension {
        3 => "OFF\n".into(),
        other => format!("nOFF\n{other}\n"),
    }
}

/// The closed ways, and how many polygons have none; at rank 2 the edge itself.
fn faces(rank: u8, entry: &Entry) -> (Vec<Cycle>, usize) {
    if rank == 2 {
        return (entry.figure.ranks.get(2).cloned().unwrap_or_default(), 0);
    }
    let ways = ways(&entry.figure);
    let open = ways.iter().filter(|ways| ways.is_none()).count();
    (ways.into_iter().flatten().flatten().collect(), open)
}
