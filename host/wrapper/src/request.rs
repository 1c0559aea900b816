//! Asking an engine for a whole answer, whose length nobody knows beforehand.

use crate::answer::Answer;
use crate::bounds::WORKSPACE;
use crate::engine::{Engine, Stop};
use crate::job::Job;
use crate::refusal::Refusal;

/// The longest answer buffer that is lent unless the caller says otherwise.
pub const LONGEST: usize = 1 << 30;

/// The answer buffer that is lent first, which is enough for most sets.
pub const USUAL_ROOM: usize = 1 << 20;

/// How many times as long each further one is: a refused attempt costs at most a
/// small part of the one behind it.
const FACTOR: usize = 8;

/// The engine's answer to a job.
pub fn answer(engine: &mut dyn Engine, job: &Job) -> Result<Answer, Stop> {
    let bytes = ask(engine, &job.write(), LONGEST)?;
    match Answer::read(&bytes) {
        Ok((answer, length)) if length == bytes.len() => Ok(answer),
        Ok(_) => Err(Stop::Broken("something follows the answer".into())),
        Err(damage) => Err(Stop::Broken(damage.to_string())),
    }
}

/// The answer's bytes and nothing behind them. A buffer that is too short is
/// replaced by a longer one, up to `longest` bytes.
pub fn ask(engine: &mut dyn Engine, job: &[u8], longest: usize) -> Result<Vec<u8>, Stop> {
    ask_by(longest, |buffer| Ok(engine.answer(job, WORKSPACE, buffer)))
}

/// The same by any call that answers so.
pub fn ask_by(
    longest: usize,
    mut call: impl FnMut(&mut [u8]) -> Result<i64, Stop>,
) -> Result<Vec<u8>, Stop> {
    let mut room = USUAL_ROOM.min(longest);
    loop {
        let mut buffer = lend(room)?;
        let code = call(&mut buffer)?;
        if code != Refusal::Room.code() || room == longest {
            return read(code, buffer);
        }
        room = room.saturating_mul(FACTOR).min(longest);
    }
}

/// Memory that cannot be had is a buffer that is too short.
fn lend(room: usize) -> Result<Vec<u8>, Stop> {
    let mut buffer = Vec::new();
    let had = buffer.try_reserve_exact(room);
    had.map_err(|_| Stop::Refused(Refusal::Room))?;
    buffer.resize(room, 0);
    Ok(buffer)
}

fn read(code: i64, mut buffer: Vec<u8>) -> Result<Vec<u8>, Stop> {
    if let Some(refusal) = Refusal::from_code(code) {
        return Err(Stop::Refused(refusal));
    }
    match usize::try_from(code) {
        Ok(length) if length <= buffer.len() => {
            buffer.truncate(length);
            Ok(buffer)
        }
        _ => Err(Stop::Broken(format!(
            "{code} is no length and no refusal number"
        ))),
    }
}

#[cfg(test)]
mod tests {
    use super::*;

    /// Answers as many bytes as it holds, and remembers the buffers it was lent.
    struct Long {
        code: i64,
        rooms: Vec<usize>,
    }

    impl Engine for Long {
        fn name(&self) -> &'static str {
            "long"
        }

        fn answer(&mut self, _job: &[u8], workspace: usize, answer: &mut [u8]) -> i64 {
            assert_eq!(workspace, WORKSPACE);
            self.rooms.push(answer.len());
            match usize::try_from(self.code) {
                Ok(length) if length > answer.len() => Refusal::Room.code(),
                _ => self.code,
            }
        }
    }

    fn asked(code: i64, longest: usize) -> (Result<usize, Stop>, Vec<usize>) {
        let mut engine = Long {
            code,
            rooms: vec![],
        };
        let found = ask(&mut engine, &[], longest).map(|bytes| bytes.len());
        (found, engine.rooms)
    }

    #[test]
    fn buffers_grow_until_the_answer_fits() {
        assert_eq!(asked(0, LONGEST), (Ok(0), vec![1 << 20]));
        assert_eq!(
            asked(9 << 20, LONGEST),
            (Ok(9 << 20), vec![1 << 20, 8 << 20, 64 << 20])
        );
    }

    #[test]
    fn growth_ends_at_the_longest() {
        let short = Err(Stop::Refused(Refusal::Room));
        assert_eq!(asked(100, 99), (short.clone(), vec![99]));
        assert_eq!(asked(100, 100), (Ok(100), vec![100]));
        assert_eq!(
            asked(9 << 20, 5 << 20),
            (short.clone(), vec![1 << 20, 5 << 20])
        );
        assert_eq!(asked(1, 0), (short, vec![0]));
    }

    #[test]
    fn refusals_pass_and_other_codes_are_told() {
        assert_eq!(asked(-16, 8).0, Err(Stop::Refused(Refusal::Budget)));
        for code in [-19, i64::MIN] {
            assert!(matches!(asked(code, 8).0, Err(Stop::Broken(_))));
        }
    }
}
