//! The square root keeps no table: the starts of its 768 arguments are in neither
//! proved library, whatever the compiler made of the arithmetic.

mod common;

use std::collections::HashSet;
use std::path::Path;

use common::object::{read_only, sections, sections_of};

/// A table of 768 starts takes no less than this.
const TABLE: usize = 768 * 2;

/// What `./library` has written; where it is not there, the test says so.
fn library(name: &str) -> Option<Vec<u8>> {
    let file = format!("../target/staticlib/lib{name}.a");
    let bytes = std::fs::read(Path::new(&file)).ok();
    if bytes.is_none() {
        println!("skipped: {file} is not there (./library {name})");
    }
    bytes
}

/// The starts that a table would hold: the whole roots that stood in one, and the
/// values of the program's polynomial.
fn tables() -> [Vec<u64>; 2] {
    let whole = |i: u64| (i << 22).isqrt();
    let value = |i: u64| (958_000_000 + i * (5_400_000 - i * (3115 - i))) / 65536;
    [
        (256..1024).map(whole).collect(),
        (256..1024).map(value).collect(),
    ]
}

/// Numbers one behind another, with so many bytes each.
fn laid_out(numbers: &[u64], width: usize) -> Vec<u8> {
    let bytes = |n: &u64| n.to_le_bytes()[..width].to_vec();
    numbers.iter().flat_map(bytes).collect()
}

/// Where four consecutive starts stand in the bytes, in 2, 4 or 8 bytes each.
fn first_run(bytes: &[u8]) -> Option<(usize, usize)> {
    const RUN: usize = 4;
    [2, 4, 8].into_iter().find_map(|width| {
        let runs = |table: &Vec<u64>| -> Vec<_> {
            let runs = table.windows(RUN);
            runs.map(|run| laid_out(run, width)).collect()
        };
        let runs: HashSet<Vec<u8>> = tables().iter().flat_map(runs).collect();
        let mut places = bytes.windows(RUN * width);
        places.position(|w| runs.contains(w)).map(|at| (at, width))
    })
}

#[test]
fn the_root_has_hardly_any_read_only_data() {
    let Some(bytes) = library("root") else {
        return;
    };
    let sections = sections(&bytes);
    let code = |(name, size): &(String, usize)| name == ".text.root_or_nan" && *size > 0;
    assert!(
        sections.iter().any(code),
        "no code of the root: {sections:?}"
    );
    assert!(read_only(&sections) < 256, "{sections:?}");
}

#[test]
fn the_register_has_less_read_only_data_than_a_table() {
    let Some(bytes) = library("register") else {
        return;
    };
    let sections = sections(&bytes);
    let code = |(name, size): &(String, usize)| name == ".text.register_answer" && *size > 0;
    assert!(sections.iter().any(code), "no code of the register");
    assert!(read_only(&sections) < TABLE, "{}", read_only(&sections));
}

#[test]
fn no_run_of_starts_is_in_a_library() {
    for name in ["root", "register"] {
        let found = library(name).and_then(|bytes| first_run(&bytes));
        assert_eq!(found, None, "place and width of starts in lib{name}.a");
    }
}

/// A table is noticed in each of its widths, at any place, even if no more than four
/// of its numbers stand together.
#[test]
fn tables_are_noticed() {
    for table in tables() {
        for width in [2, 4, 8] {
            for first in [0, 381, 764] {
                let mut bytes = vec![7; 13];
                bytes.extend(laid_out(&table[first..first + 4], width));
                bytes.push(7);
                assert_eq!(first_run(&bytes), Some((13, width)));
                bytes[13 + width] ^= 1;
                assert_eq!(first_run(&bytes), None);
            }
        }
    }
}

/// The sections are read: this program itself has read-only data, and an archive of
/// it has as much.
#[test]
fn read_only_data_is_noticed() {
    let program = std::env::current_exe().expect("the program of this test");
    let program = std::fs::read(program).expect("it can be read");
    let amount = read_only(&sections_of(&program));
    assert!(amount > TABLE, "{amount}");
    let mut archive = b"!<arch>\n".to_vec();
    for object in [&b"odd"[..], &program] {
        let header = format!("{:48}{:<10}`\n", "member/", object.len());
        archive.extend(header.as_bytes());
        archive.extend(object);
        archive.extend(vec![b'\n'; object.len() % 2]);
    }
    assert_eq!(read_only(&sections(&archive)), amount);
}
