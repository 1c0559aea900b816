//! Rows of jobs beside single calls, where the register is linked.

mod common;

use std::time::{Duration, Instant};

use faceting_register::batch::{record, row, REFUSED_ROW};
use faceting_register::{Engine, Register};
use facetings_host::compare::rows::{compare, compare_generated, gives, Met};

use common::{job, CORNER, SQUARE, SQUARE_GROUP, WORKSPACE};

/// Generated rows that every run of the tests compares.
const COUNT: usize = 260;

/// The linked register; where there is none, the test says that it was skipped.
fn register() -> Option<Register> {
    let absent = |words| println!("skipped: {words}");
    Register::open().map_err(absent).ok()
}

/// A square with its symmetries, a job of no bytes, four points in space, and a
/// square whose mark is wrong.
fn some_jobs() -> Vec<Vec<u8>> {
    let square = job(&format!("{SQUARE}{SQUARE_GROUP}"));
    let mut other = square.clone();
    other[0] ^= 1;
    vec![square, vec![], job(CORNER), other]
}

#[test]
fn generated_rows_have_the_records_of_single_calls() {
    let Some(mut register) = register() else {
        return;
    };
    let met = compare_generated(&mut register, 31, COUNT).unwrap_or_else(|words| panic!("{words}"));
    assert_eq!(met.rows, COUNT);
    assert!(
        met.refused > 100 && met.jobs > met.refused + 100 && met.bytes > 100_000,
        "{met:?}"
    );
}

#[test]
fn a_row_cut_anywhere_is_refused_but_between_jobs() {
    let Some(mut register) = register() else {
        return;
    };
    let jobs = some_jobs();
    let whole = row(jobs.iter().map(Vec::as_slice));
    let ends: Vec<usize> = (0..=jobs.len())
        .map(|n| row(jobs[..n].iter().map(Vec::as_slice)).len())
        .collect();
    for end in 0..=whole.len() {
        match ends.iter().position(|at| *at == end) {
            Some(n) => compare(&mut register, &jobs[..n], WORKSPACE, &mut Met::default()),
            None => gives(
                &mut register,
                &whole[..end],
                WORKSPACE,
                100,
                REFUSED_ROW,
                &[],
            ),
        }
        .unwrap_or_else(|words| panic!("cut at {end}: {words}"));
    }
}

#[test]
fn small_rows_are_as_decided() {
    let Some(mut register) = register() else {
        return;
    };
    let mut is = |row: &[u8], room: usize, code: i64, bytes: &[u8]| {
        gives(&mut register, row, 0, room, code, bytes).unwrap_or_else(|words| panic!("{words}"));
    };
    is(&[], 0, 0, &[]);
    is(&[], 9, 0, &[]);
    is(&[0; 4], 6, 6, &[0, 0, 0, 0, 1, 0]);
    is(&[0; 4], 5, -27, &[]);
    is(&[0; 3], 9, -26, &[]);
    is(&[255, 255, 255, 255, 7], 9, -26, &[]);
    is(&[255; 4], 9, -26, &[]);
    is(&[0; 8], 12, 12, &[0, 0, 0, 0, 1, 0, 0, 0, 0, 0, 1, 0]);
}

#[test]
fn every_job_gets_the_whole_workspace() {
    let Some(mut register) = register() else {
        return;
    };
    for workspace in [0, 524_287, 524_288, WORKSPACE - 1, WORKSPACE] {
        let compared = compare(&mut register, &some_jobs(), workspace, &mut Met::default());
        compared.unwrap_or_else(|words| panic!("workspace {workspace}: {words}"));
    }
}

#[test]
fn a_row_with_a_rest_is_refused_before_any_job_is_run() {
    let Some(mut register) = register() else {
        return;
    };
    let parabola: String = (0..6).map(|i| format!("{i} {}\n", i * i)).collect();
    let slow = job(&format!("points\n{parabola}"));
    let mut answer = vec![0; 1 << 20];
    let start = Instant::now();
    register.answer(&slow, WORKSPACE, &mut answer);
    let one = start.elapsed().max(Duration::from_micros(10));
    let many = (20.0 / one.as_secs_f64()).ceil() as usize;
    let mut jobs = row(std::iter::repeat(&slow[..]).take(many.min(200_000)));
    jobs.push(0);
    let start = Instant::now();
    assert_eq!(
        register.answer_row(&jobs, WORKSPACE, &mut answer),
        Some(REFUSED_ROW)
    );
    assert!(
        start.elapsed() < Duration::from_secs(2),
        "{:?}",
        start.elapsed()
    );
}

#[test]
fn a_thousand_jobs_have_their_records() {
    let Some(mut register) = register() else {
        return;
    };
    let jobs: Vec<Vec<u8>> = some_jobs().into_iter().cycle().take(1_000).collect();
    let mut met = Met::default();
    compare(&mut register, &jobs, WORKSPACE, &mut met).unwrap_or_else(|words| panic!("{words}"));
    assert_eq!((met.jobs, met.refused), (1_000, 500));
    assert_eq!(record(12, &[]), [0, 0, 0, 0, 12, 0]);
}
