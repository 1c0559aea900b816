//! What the proved program `orbit_list` is run on and held to: its jobs come from
//! their text, and its recorded output from the original.

mod common;

use facetings_host::format::frames::{frame, jobs};
use facetings_host::format::text;
use facetings_host::report::orbits::lines;

use common::{oracle, WORKSPACE};

const FOLDER: &str = concat!(env!("CARGO_MANIFEST_DIR"), "/../crates/orbit_list");

fn recorded(name: &str) -> Vec<u8> {
    let place = format!("{FOLDER}/{name}");
    std::fs::read(&place).unwrap_or_else(|error| panic!("{place}: {error}"))
}

#[test]
fn jobs_come_from_their_text() {
    let text = String::from_utf8(recorded("jobs.txt")).expect("the jobs are text");
    assert_eq!(text::encode(&text), Ok(recorded("stdin")));
}

#[test]
fn recorded_output_is_the_originals() {
    let Some(oracle) = oracle() else { return };
    let stdin = recorded("stdin");
    let listed: Vec<String> = (0..)
        .zip(jobs(&stdin).expect("each job is there whole"))
        .map(|(number, job)| lines(number, &oracle.judge(job, WORKSPACE)))
        .collect::<Result<_, _>>()
        .expect("the original comes to every orbit");
    assert!(listed.len() > 12);
    let stdout = String::from_utf8(recorded("stdout")).expect("the output is text");
    assert_eq!(listed.concat(), stdout);
}

#[test]
fn files_of_jobs_are_taken_apart() {
    let file = [frame(&[7, 8]), frame(&[]), frame(&[9])].map(Result::unwrap);
    assert_eq!(file.concat(), [2, 0, 7, 8, 0, 0, 1, 0, 9]);
    assert_eq!(jobs(&file.concat()), Ok(vec![&[7, 8][..], &[], &[9]]));
    assert_eq!(jobs(&[]), Ok(vec![]));
    let cut = Err("job 1 is not there whole".to_string());
    assert_eq!(jobs(&[1, 0, 9, 2]), cut);
    assert_eq!(jobs(&[1, 0, 9, 2, 0, 7]), cut);
    assert!(frame(&[0; 65_536]).is_err());
}
