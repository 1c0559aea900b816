//! What the tests share: the original where it is there, and jobs from text.

#![allow(dead_code)] // Each file of tests uses its own part of this.

pub mod format;
pub mod json;
pub mod object;
pub mod place;
pub mod ways;

use std::io::Write;
use std::sync::Once;

use faceting_register::{Answer, Entry, Stop};
use facetings_host::engines::judgement::Judgement;
use facetings_host::engines::oracle::{NoSource, Oracle};
use facetings_host::format::text;

pub const SQUARE: &str = "points\n0 0\n1 0\n1 1\n0 1\n";
pub const SQUARE_GROUP: &str = "generators\n1 2 3 0\n0 3 2 1\n";
pub const CORNER: &str = "points\n0 0 0\n1 0 0\n0 1 0\n0 0 1\n";

/// Enough workspace for every rank.
pub const WORKSPACE: usize = faceting_register::bounds::WORKSPACE;

/// The original; where it is not there, one line for all tests of a file says
/// that they were skipped. It goes past the capture of what tests print.
pub fn oracle() -> Option<Oracle> {
    static SAID: Once = Once::new();
    let absent = |words: NoSource| {
        let line = format!("skipped, all tests here that need the original: {words}\n");
        SAID.call_once(|| {
            let _ = std::io::stderr().write_all(line.as_bytes());
        });
    };
    Oracle::open().map_err(absent).ok()
}

pub fn job(text: &str) -> Vec<u8> {
    text::encode(text).unwrap_or_else(|reason| panic!("{reason} in:\n{text}"))
}

pub fn judge(oracle: &Oracle, text: &str) -> Judgement {
    oracle.judge(&job(text), WORKSPACE)
}

/// The answer to a job that must be accepted.
pub fn answer(oracle: &Oracle, text: &str) -> Answer {
    match judge(oracle, text).result {
        Ok(answer) => answer,
        Err(stop) => panic!("{stop:?} for:\n{text}"),
    }
}

/// The refusal number, 0 for an answer.
pub fn refusal(oracle: &Oracle, text: &str) -> u8 {
    match judge(oracle, text).result {
        Ok(_) => 0,
        Err(Stop::Refused(refusal)) => refusal.number(),
        Err(Stop::Broken(words)) => panic!("{words} for:\n{text}"),
    }
}

/// The orbits of each entry's list; every facet must have number 0.
pub fn orbit_lists(answer: &Answer) -> Vec<Vec<u32>> {
    let orbit = |&(orbit, facet): &(u32, u32)| {
        assert_eq!(facet, 0);
        orbit
    };
    let list = |entry: &Entry| entry.list.iter().map(orbit).collect();
    answer.entries.iter().map(list).collect()
}
