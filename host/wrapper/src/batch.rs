//! Rows of jobs, and the records that answer them.

use crate::bounds::WORKSPACE;
use crate::engine::{Engine, Stop};
use crate::refusal::Refusal;
use crate::request::{ask, USUAL_ROOM};

/// The length and the refusal number in front of an answer.
const HEAD: usize = 6;

/// What a row is refused with where a length overruns it or bytes are left.
pub const REFUSED_ROW: i64 = -26;

/// What a row is refused with where its records have no room.
pub const REFUSED_RECORDS: i64 = -27;

/// The jobs one behind the other, each behind its length.
pub fn row<'a>(jobs: impl IntoIterator<Item = &'a [u8]>) -> Vec<u8> {
    let mut row = Vec::new();
    for job in jobs {
        let length = u32::try_from(job.len()).expect("a job's length is a u32");
        row.extend(length.to_le_bytes());
        row.extend(job);
    }
    row
}

/// A job's record: the number of its refusal, or 0, and its answer.
pub type Record<'a> = (u16, &'a [u8]);

/// The records that fill these bytes; none where the bytes are no records.
pub fn records(mut bytes: &[u8]) -> Option<Vec<Record<'_>>> {
    let mut records = Vec::new();
    while !bytes.is_empty() {
        let length = u32::from_le_bytes(bytes.get(..4)?.try_into().ok()?);
        let number = u16::from_le_bytes(bytes.get(4..HEAD)?.try_into().ok()?);
        let end = HEAD.checked_add(usize::try_from(length).ok()?)?;
        records.push((number, bytes.get(HEAD..end)?));
        bytes = &bytes[end..];
    }
    Some(records)
}

/// The record of a result.
pub fn record(number: u16, answer: &[u8]) -> Vec<u8> {
    let length = u32::try_from(answer.len()).expect("an answer's length is a u32");
    [&length.to_le_bytes()[..], &number.to_le_bytes(), answer].concat()
}

/// What each job gets, an answer of no more than `longest` bytes: all in one call
/// where the engine takes a row and the usual room for each is enough for all of them
/// together, and else one by one.
pub fn ask_all(
    engine: &mut dyn Engine,
    jobs: &[&[u8]],
    longest: usize,
) -> Vec<Result<Vec<u8>, Stop>> {
    let together = ask_row(engine, jobs, longest);
    together.unwrap_or_else(|| jobs.iter().map(|job| ask(engine, job, longest)).collect())
}

fn ask_row(
    engine: &mut dyn Engine,
    jobs: &[&[u8]],
    longest: usize,
) -> Option<Vec<Result<Vec<u8>, Stop>>> {
    let mut buffer = vec![0; jobs.len() * (HEAD + USUAL_ROOM.min(longest))];
    let code = engine.answer_row(&row(jobs.iter().copied()), WORKSPACE, &mut buffer)?;
    let written = buffer.get(..usize::try_from(code).ok()?)?;
    let found = records(written).filter(|found| found.len() == jobs.len())?;
    Some(
        found
            .into_iter()
            .map(|record| result(record, longest))
            .collect(),
    )
}

fn result((number, answer): Record<'_>, longest: usize) -> Result<Vec<u8>, Stop> {
    match Refusal::from_code(-i64::from(number)) {
        Some(refusal) => Err(Stop::Refused(refusal)),
        None if number != 0 => Err(Stop::Broken(format!("{number} is no refusal number"))),
        None if longest < answer.len() => Err(Stop::Refused(Refusal::Room)),
        None => Ok(answer.to_vec()),
    }
}

#[cfg(test)]
mod tests {
    use super::*;

    #[test]
    fn a_row_is_lengths_and_jobs() {
        assert_eq!(row([]), []);
        assert_eq!(row([&b"ab"[..], b""]), [2, 0, 0, 0, b'a', b'b', 0, 0, 0, 0]);
    }

    #[test]
    fn records_are_read_back_and_nothing_else_is() {
        let bytes = [record(0, b"abc"), record(12, b"")].concat();
        assert_eq!(records(&bytes), Some(vec![(0, &b"abc"[..]), (12, b"")]));
        for end in 1..bytes.len() {
            let whole = end == record(0, b"abc").len();
            assert_eq!(records(&bytes[..end]).is_some(), whole, "{end}");
        }
    }
}
