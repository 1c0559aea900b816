//! Cases through an engine, one by one.

use faceting_register::request::USUAL_ROOM;
use faceting_register::{Engine, Refusal};

use crate::cases::{Case, Outcome, Room};

/// What the buffer holds beforehand: an engine must leave none of it.
const POISON: u8 = 0xa5;

/// The largest buffer that is tried to find out how long an answer is.
const LARGEST: usize = 1 << 28;

/// The outcome of a case.
pub fn run(engine: &mut dyn Engine, case: &Case) -> Outcome {
    let room = match case.room {
        Room::Bytes(room) => room,
        Room::Fit(more) => fitting(engine, case).saturating_add_signed(more),
    };
    let mut buffer = vec![POISON; room];
    let code = engine.answer(&case.job, case.workspace, &mut buffer);
    Outcome {
        number: case.number,
        kind: case.kind.clone(),
        code,
        buffer,
    }
}

/// The length of the answer; 0 for a job that is refused.
fn fitting(engine: &mut dyn Engine, case: &Case) -> usize {
    let mut room = USUAL_ROOM;
    loop {
        let code = engine.answer(&case.job, case.workspace, &mut vec![POISON; room]);
        if code != Refusal::Room.code() || room >= LARGEST {
            return usize::try_from(code).unwrap_or(0);
        }
        room *= 8;
    }
}
