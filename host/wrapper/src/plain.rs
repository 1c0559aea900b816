//! The plain entries of a job: those in which the proved function finds no other.

use crate::bounds::WORKSPACE;
use crate::engine::{Engine, Stop};
use crate::refusal::Refusal;

/// The buffer that holds every list: a count and 1,024 numbers.
pub const PLAIN_ROOM: usize = 4 * (1 + 1_024);

/// How many numbers, and then each, as the function writes them.
pub fn bytes(numbers: &[u32]) -> Vec<u8> {
    let count = u32::try_from(numbers.len()).expect("their count is a u32");
    let words = std::iter::once(&count).chain(numbers);
    words.flat_map(|word| word.to_le_bytes()).collect()
}

/// The numbers that these bytes hold, and nothing behind them.
pub fn numbers(bytes: &[u8]) -> Option<Vec<u32>> {
    let mut words = bytes
        .chunks(4)
        .map(|word| word.try_into().ok().map(u32::from_le_bytes));
    let count = usize::try_from(words.next()??).ok()?;
    let numbers = words.collect::<Option<Vec<u32>>>()?;
    (numbers.len() == count).then_some(numbers)
}

/// The ascending numbers of the job's plain entries.
pub fn plain(engine: &mut dyn Engine, job: &[u8]) -> Result<Vec<u32>, Stop> {
    let mut buffer = [0; PLAIN_ROOM];
    let code = engine
        .plain(job, WORKSPACE, &mut buffer)
        .ok_or_else(|| Stop::Broken(format!("the {} has no such call", engine.name())))?;
    if let Some(refusal) = Refusal::from_code(code) {
        return Err(Stop::Refused(refusal));
    }
    let written = usize::try_from(code).ok().and_then(|end| buffer.get(..end));
    written
        .and_then(numbers)
        .ok_or_else(|| Stop::Broken(format!("{code} is no length of a list of numbers")))
}

#[cfg(test)]
mod tests {
    use super::*;

    #[test]
    fn numbers_are_read_back_and_nothing_else_is() {
        for list in [&[][..], &[0], &[0, 5, 1_023]] {
            assert_eq!(numbers(&bytes(list)).as_deref(), Some(list));
        }
        let whole = bytes(&[3, 4]);
        for end in 0..whole.len() {
            assert_eq!(numbers(&whole[..end]), None, "{end}");
        }
        assert_eq!(numbers(&[&whole[..], &[0; 4]].concat()), None);
    }
}
