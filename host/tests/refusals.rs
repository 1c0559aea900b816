//! Refusals 1 to 12 in their order, and bytes altered at every place. Only the
//! last needs the original.

mod common;

use faceting_register::job::accept;
use faceting_register::{Job, Stop};

use common::{job, oracle, CORNER, SQUARE, WORKSPACE};

fn refusal(bytes: &[u8], workspace: usize) -> u8 {
    accept(bytes, workspace)
        .err()
        .map_or(0, |refusal| refusal.number())
}

/// A job in which everything is wrong at once, mended fault by fault.
#[test]
fn the_first_fault_in_order_decides() {
    let mut job = Job::read(&job(SQUARE)).expect("the square is laid out");
    job.version = 3;
    job.tolerance = 1.0;
    job.rule = 3;
    job.rows = vec![vec![1, 0, 2, 3], vec![0, 0, 0, 9]];
    job.min = Some(-1.0);
    let mut bytes = job.write();
    bytes.push(0);
    let row_0 = bytes.len() - 9;
    let row_1 = bytes.len() - 5;
    bytes[0] = b'G';
    bytes[3] = 4;
    bytes[5..11].copy_from_slice(&[9, 9, 1, 0, 0, 9]);
    let steps: [(u8, usize, &[u8]); 12] = [
        (1, 0, b"F"),
        (2, 3, &[3]),
        (3, 5, &[3]),
        (4, 6, &[2]),
        (5, 7, &[4]),
        (6, 8, &[2]),
        (7, 10, &[1]),
        (8, 0, b""),
        (9, 18, &[0x3f]),
        (22, 19, &0.001_f64.to_le_bytes()),
        (25, 27, &[2]),
        (10, row_0, &[0, 1]),
    ];
    for (number, place, mended) in steps {
        assert_eq!(refusal(&bytes, 0), number);
        bytes[place..place + mended.len()].copy_from_slice(mended);
        if number == 8 {
            bytes.pop();
        }
    }
    assert_eq!(refusal(&bytes, 0), 11);
    bytes[row_1..].copy_from_slice(&[3, 2, 1, 0]);
    assert_eq!(refusal(&bytes, 0), 12);
    assert_eq!(refusal(&bytes, WORKSPACE), 0);
}

#[test]
fn both_sides_of_each_bound_on_numbers() {
    let with = |change: fn(&mut Job, f64), value: f64| {
        let mut job = Job::read(&job(SQUARE)).expect("the square is laid out");
        change(&mut job, value);
        refusal(&job.write(), WORKSPACE)
    };
    type Change = fn(&mut Job, f64);
    let bounds: [(Change, f64); 5] = [
        (|job, x| job.points[3][1] = x, 65_536.0),
        (|job, x| job.offset[1] = -x, 65_536.0),
        (|job, x| job.basis[0][1] = -x, 1.0),
        (|job, x| job.min = Some(x), 131_072.0),
        (|job, x| job.max = Some(x), 131_072.0),
    ];
    for (change, bound) in bounds {
        assert_eq!(with(change, bound), 0);
        assert_eq!(with(change, bound.next_up()), 9);
        assert_eq!(with(change, f64::NAN), 9);
    }
    let tolerance: Change = |job, x| (job.version, job.tolerance) = (2, x);
    for (end, beyond) in [
        (1e-9, 1e-9_f64.next_down()),
        (1e-3, 1e-3_f64.next_up()),
        (1e-7, 0.0),
        (1e-7, -0.0),
        (1e-7, -1e-7),
    ] {
        assert_eq!(with(tolerance, end), 0);
        assert_eq!(with(tolerance, beyond), 22);
    }
    for never in [f64::NAN, f64::INFINITY, f64::NEG_INFINITY] {
        assert_eq!(with(tolerance, never), 9);
    }
    let rule: Change = |job, x| (job.version, job.rule) = (3, x as u8);
    for (number, refused) in [(0.0, 25), (1.0, 0), (2.0, 0), (3.0, 25), (255.0, 25)] {
        assert_eq!(with(rule, number), refused);
    }
    assert_eq!(with(|job, x| job.max = Some(x), -0.0), 0);
    assert_eq!(with(|job, x| job.max = Some(x), -5e-324), 9);
}

#[test]
fn workspaces_of_each_rank() {
    let pair = "rank 2\npoints\n0\n1\n";
    for (text, enough) in [(pair, 0), (SQUARE, 524_288), (CORNER, 4_194_304)] {
        assert_eq!(refusal(&job(text), enough), 0);
        if enough > 0 {
            assert_eq!(refusal(&job(text), enough - 1), 12);
        }
    }
}

#[test]
fn every_shorter_job_is_refused() {
    let bytes = job(SQUARE);
    for length in 0..bytes.len() {
        let expected = if length < 11 { 1 } else { 8 };
        assert_eq!(refusal(&bytes[..length], WORKSPACE), expected);
    }
}

#[test]
fn a_byte_altered_at_any_place_gives_an_answer_or_a_refusal() {
    let Some(oracle) = oracle() else { return };
    let sound = job("points\n0 0\n1 0\n0 1\ngenerators\n1 2 0\nmin 0.5\nmax 2\nlimit 3\n");
    let mut reached = std::collections::BTreeSet::new();
    for (place, bit) in (0..sound.len()).flat_map(|place| (0..8).map(move |bit| (place, bit))) {
        let mut bytes = sound.clone();
        bytes[place] ^= 1 << bit;
        match oracle.judge(&bytes, WORKSPACE).result {
            Ok(_) => reached.insert(0),
            Err(Stop::Refused(refusal)) => reached.insert(refusal.number()),
            Err(Stop::Broken(words)) => panic!("byte {place}, bit {bit}: {words}"),
        };
    }
    let expected: Vec<u8> = (0..=11).collect();
    assert!(
        expected.iter().all(|number| reached.contains(number)),
        "{reached:?}"
    );
}
