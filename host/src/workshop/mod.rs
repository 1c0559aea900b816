//! What a workshop looks at, passes on and cuts from: files made of a report, with
//! lengths and places from the job's points.

pub mod colour;
pub mod contact;
pub mod cut;
pub mod html;
pub mod index;
pub mod markup;
pub mod off;
pub mod picture;
pub mod pieces;
pub mod sheet;
pub mod view;

use crate::report::{Report, VERSION};

/// What every file says that is made here, so that it may be made again in its place.
pub const MARK: &str = "written by the register";

/// What a file is about and where it comes from, in a line.
pub fn mark(report: &Report, entry: Option<usize>) -> String {
    let (name, hash) = (&report.subject.name, &report.source.hash);
    let name = name.replace("--", "- -");
    let of = match entry {
        Some(entry) => format!("Entry {entry} of {name}"),
        None => name,
    };
    format!("{of}, {MARK}, version {VERSION}, job sha256 {hash}")
}

/// Whether a file was made here: it says so near its beginning.
pub fn is_ours(bytes: &[u8]) -> bool {
    const NEAR: usize = 4096;
    let front = String::from_utf8_lossy(&bytes[..bytes.len().min(NEAR)]);
    front.contains(MARK)
}
