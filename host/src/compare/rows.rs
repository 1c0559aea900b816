//! Rows of jobs beside single calls of the same library: each record is what its job
//! gets by itself.

use faceting_register::batch::{record, row, REFUSED_RECORDS, REFUSED_ROW};
use faceting_register::bounds::workspace_length;
use faceting_register::request::USUAL_ROOM;
use faceting_register::{Engine, Refusal};

use crate::cases::generator::case;

/// The most jobs in a generated row.
const MOST_JOBS: usize = 12;

/// What stands in a buffer before a call.
const POISON: u8 = 0xa5;

/// What was met.
#[derive(Clone, Copy, Debug, Default, PartialEq, Eq)]
pub struct Met {
    /// Rows that were compared.
    pub rows: usize,
    /// Their jobs.
    pub jobs: usize,
    /// Jobs that were refused.
    pub refused: usize,
    /// Bytes of records.
    pub bytes: usize,
}

/// What the job gets by itself, from a single call that has room for it.
fn alone(engine: &mut dyn Engine, job: &[u8], workspace: usize) -> (u16, Vec<u8>) {
    let mut room = USUAL_ROOM;
    loop {
        let mut buffer = vec![POISON; room];
        let code = engine.answer(job, workspace, &mut buffer);
        match usize::try_from(code) {
            Ok(length) => return (0, buffer[..length].to_vec()),
            Err(_) if code == Refusal::Room.code() => room *= 8,
            Err(_) => return ((-code) as u16, Vec::new()),
        }
    }
}

/// A call in a poisoned buffer of this length has this code and these bytes, with
/// zeros behind them.
pub fn gives(
    engine: &mut dyn Engine,
    row: &[u8],
    workspace: usize,
    room: usize,
    code: i64,
    bytes: &[u8],
) -> Result<(), String> {
    let mut buffer = vec![POISON; room];
    let got = engine.answer_row(row, workspace, &mut buffer);
    if got != Some(code) {
        return Err(format!("code {got:?} in place of {code}, room {room}"));
    }
    if !buffer.starts_with(bytes) || buffer[bytes.len()..].iter().any(|byte| *byte != 0) {
        return Err(format!("another buffer, code {code}, room {room}"));
    }
    Ok(())
}

/// One row: its records in a buffer that is exactly full, in a longer one, and one
/// byte short.
pub fn compare(
    engine: &mut dyn Engine,
    jobs: &[Vec<u8>],
    workspace: usize,
    met: &mut Met,
) -> Result<(), String> {
    let results: Vec<_> = jobs
        .iter()
        .map(|job| alone(engine, job, workspace))
        .collect();
    let written: Vec<u8> = results
        .iter()
        .flat_map(|(number, answer)| record(*number, answer))
        .collect();
    let row = row(jobs.iter().map(Vec::as_slice));
    let length = written.len();
    gives(engine, &row, workspace, length, length as i64, &written)?;
    gives(
        engine,
        &row,
        workspace,
        length + 13,
        length as i64,
        &written,
    )?;
    if length > 0 {
        gives(engine, &row, workspace, length - 1, REFUSED_RECORDS, &[])?;
    }
    gives(
        engine,
        &[&row[..], &[7]].concat(),
        workspace,
        length,
        REFUSED_ROW,
        &[],
    )?;
    met.rows += 1;
    met.jobs += jobs.len();
    met.refused += results.iter().filter(|(number, _)| *number != 0).count();
    met.bytes += length;
    Ok(())
}

/// Rows of 0 to 12 generated jobs, whole and damaged, of every rank, with workspaces
/// of every rank's length and one byte less.
pub fn compare_generated(engine: &mut dyn Engine, seed: u64, count: usize) -> Result<Met, String> {
    let mut met = Met::default();
    let mut next = 0;
    for number in 0..count {
        let many = number % (MOST_JOBS + 1);
        let jobs: Vec<_> = (next..next + many)
            .map(|i| case(seed, i, None).job)
            .collect();
        next += many;
        let lengths = [2, 3, 4].map(workspace_length);
        let workspace = match number / (MOST_JOBS + 1) % 8 {
            0 => lengths[0],
            1 => lengths[1],
            2 => lengths[1] - 1,
            3 => lengths[2] - 1,
            _ => lengths[2],
        };
        compare(engine, &jobs, workspace, &mut met)
            .map_err(|words| format!("row {number}: {words}"))?;
    }
    Ok(met)
}
