//! A recorded list, read as a program would that replays it.

mod common;

use faceting_register::{Engine, Register};
use facetings_host::cases::record::{hash, record, LARGEST_ROOM, LARGEST_WORKSPACE, LONGEST_JOB};

use common::oracle;

struct Record {
    job: Vec<u8>,
    workspace: usize,
    room: usize,
    refusal: usize,
    length: usize,
    hash: usize,
}

fn word(bytes: &mut &[u8]) -> usize {
    let (four, rest) = bytes.split_first_chunk().expect("a word is there");
    *bytes = rest;
    u32::from_le_bytes(*four) as usize
}

fn records(mut bytes: &[u8]) -> Vec<Record> {
    let count = word(&mut bytes);
    let mut one = |_| {
        let length = word(&mut bytes);
        let (job, rest) = bytes.split_at(length);
        bytes = rest;
        Record {
            job: job.to_vec(),
            workspace: word(&mut bytes),
            room: word(&mut bytes),
            refusal: word(&mut bytes),
            length: word(&mut bytes),
            hash: word(&mut bytes),
        }
    };
    let list = (0..count).map(&mut one).collect();
    assert!(bytes.is_empty());
    list
}

/// Whether an engine gives what the record says.
fn replays(engine: &mut dyn Engine, record: &Record) -> bool {
    let mut answer = vec![0xa5; record.room];
    let code = engine.answer(&record.job, record.workspace, &mut answer);
    let refused = usize::try_from(-code).unwrap_or(0);
    let length = usize::try_from(code).unwrap_or(0);
    refused == record.refusal && length == record.length && hash(&answer) as usize == record.hash
}

#[test]
fn the_hash_tells_bytes_apart() {
    assert_eq!(hash(&[]), 0);
    assert_eq!(hash(&[0]), 1);
    assert_eq!(hash(&[0, 0]), 16_777_620);
    // 16777620 * 16777619 + 6 + 1 modulo 4294967291
    assert_eq!(
        u64::from(hash(&[0, 0, 6])),
        (16_777_620u64 * 16_777_619 + 7) % 4_294_967_291
    );
    assert_ne!(hash(&[1, 2]), hash(&[2, 1]));
}

#[test]
fn a_list_replays_and_notices_changes() {
    let Some(mut oracle) = oracle() else { return };
    let list = record(&mut oracle, 5, 120).expect("known jobs are well formed");
    let mut records = records(&list.bytes());
    assert_eq!(records.len(), list.count());
    assert!(records.len() > 100);
    for record in &records {
        assert!(record.job.len() <= LONGEST_JOB && record.room <= LARGEST_ROOM);
        assert!(record.workspace <= LARGEST_WORKSPACE);
        assert!(replays(&mut oracle, record));
    }
    records.iter_mut().for_each(|record| record.hash ^= 1);
    assert!(!records.iter().any(|record| replays(&mut oracle, record)));
    records.iter_mut().for_each(|record| record.hash ^= 1);
    match Register::open() {
        Ok(mut register) => assert!(records.iter().all(|one| replays(&mut register, one))),
        Err(words) => println!("skipped: {words}"),
    }
}

/// A file that one of the proved programs is run on or held to.
fn of_program(name: &str) -> Vec<u8> {
    let place = format!("{}/../crates/{name}", env!("CARGO_MANIFEST_DIR"));
    std::fs::read(&place).unwrap_or_else(|error| panic!("{place}: {error}"))
}

#[test]
fn the_program_that_replays_is_given_results_of_the_original() {
    let records = records(&of_program("replay/stdin"));
    assert!(records.len() >= 400);
    let refused = |number| records.iter().any(|record| record.refusal == number);
    assert!((0..=17).chain([22, 25]).all(refused));
    let said = format!("{0} of {0} results are the Rust's\n", records.len());
    assert_eq!(of_program("replay/stdout"), said.into_bytes());
    let Some(mut oracle) = oracle() else { return };
    assert!(records.iter().all(|record| replays(&mut oracle, record)));
}

#[test]
fn the_program_that_answers_is_held_to_the_original() {
    let text = String::from_utf8(of_program("../examples/cube.txt")).expect("a set is text");
    let job = common::job(&text);
    assert_eq!(of_program("facetings/stdin"), job);
    let Some(mut oracle) = oracle() else { return };
    let answer = of_program("facetings/stdout");
    let mut buffer = vec![0; answer.len()];
    let code = oracle.answer(&job, common::WORKSPACE, &mut buffer);
    assert_eq!(usize::try_from(code), Ok(answer.len()));
    assert_eq!(buffer, answer);
}
