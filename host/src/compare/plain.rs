//! The plain entries of jobs beside the original: its own answer, and what its
//! `filter_irc` returns on the sorted split lists of that.

use faceting_register::plain::bytes;
use faceting_register::{Answer, Engine, Refusal, Stop};

use super::workspace_of;
use crate::cases::generator::case;
use crate::engines::oracle::{kept, Oracle};

/// What stands in a buffer before a call.
const POISON: u8 = 0xa5;

/// What was met.
#[derive(Clone, Copy, Debug, Default, PartialEq, Eq)]
pub struct Met {
    /// Jobs that were compared.
    pub jobs: usize,
    /// Calls that were made.
    pub calls: usize,
    /// Jobs that were refused.
    pub refused: usize,
    /// Entries of those that were not.
    pub entries: usize,
    /// Entries that were left out.
    pub left_out: usize,
    /// Compounds among them.
    pub labelled: usize,
    /// Entries that were kept though the list of another stands inside theirs.
    pub kept_with_another: usize,
    /// Entries left out that stand in no compound's place.
    pub left_out_unlabelled: usize,
}

/// The items of b stand in a, in their order.
fn inside(b: &[(u32, u32)], a: &[(u32, u32)]) -> bool {
    let mut rest = a.iter();
    b.iter().all(|item| rest.any(|other| other == item))
}

/// Whether the list of some other entry stands inside the list of this one.
fn holds_another(answer: &Answer, a: usize) -> bool {
    let lists = answer.entries.iter().map(|entry| &entry.list).enumerate();
    let list = &answer.entries[a].list;
    lists
        .into_iter()
        .any(|(b, other)| b != a && inside(other, list))
}

/// A call in a poisoned buffer of this length has this code and these bytes, with
/// zeros behind them.
pub fn gives(
    engine: &mut dyn Engine,
    job: &[u8],
    workspace: usize,
    room: usize,
    code: i64,
    bytes: &[u8],
) -> Result<(), String> {
    let mut buffer = vec![POISON; room];
    let got = engine.plain(job, workspace, &mut buffer);
    if got != Some(code) {
        return Err(format!("code {got:?} in place of {code}, room {room}"));
    }
    if !buffer.starts_with(bytes) || buffer[bytes.len()..].iter().any(|byte| *byte != 0) {
        return Err(format!("another buffer, code {code}, room {room}"));
    }
    Ok(())
}

/// One job: in a buffer that is exactly full, in a longer one, and one byte short; a
/// refused one in none and in a small one. What is left out holds another, and every
/// compound is left out.
pub fn compare(
    engine: &mut dyn Engine,
    oracle: &Oracle,
    job: &[u8],
    workspace: usize,
    met: &mut Met,
) -> Result<(), String> {
    met.jobs += 1;
    let answer = match oracle.judge(job, workspace).result {
        Err(Stop::Broken(words)) => return Err(format!("the original panicked: {words}")),
        Err(Stop::Refused(refusal)) => {
            met.refused += 1;
            met.calls += 2;
            gives(engine, job, workspace, 0, refusal.code(), &[])?;
            return gives(engine, job, workspace, 27, refusal.code(), &[]);
        }
        Ok(answer) => answer,
    };
    let kept = kept(&answer);
    let written = bytes(&kept);
    let length = written.len();
    met.calls += 3;
    gives(engine, job, workspace, length, length as i64, &written)?;
    gives(engine, job, workspace, length + 13, length as i64, &written)?;
    gives(
        engine,
        job,
        workspace,
        length - 1,
        Refusal::Room.code(),
        &[],
    )?;
    let compounds: Vec<u32> = answer.compounds.iter().map(|triple| triple[0]).collect();
    for number in 0..answer.entries.len() as u32 {
        let another = holds_another(&answer, number as usize);
        let labelled = compounds.contains(&number);
        match (kept.binary_search(&number).is_ok(), another, labelled) {
            (true, _, true) => return Err(format!("compound {number} is kept")),
            (false, false, _) => return Err(format!("{number} is left out, and none is inside")),
            (true, true, _) => met.kept_with_another += 1,
            (false, true, false) => met.left_out_unlabelled += 1,
            _ => {}
        }
    }
    met.entries += answer.entries.len();
    met.left_out += answer.entries.len() - kept.len();
    met.labelled += compounds.len();
    Ok(())
}

/// Generated jobs, whole and damaged, of every rank, with workspaces of every rank's
/// length and one byte less.
pub fn compare_generated(
    engine: &mut dyn Engine,
    oracle: &Oracle,
    seed: u64,
    count: usize,
) -> Result<Met, String> {
    let mut met = Met::default();
    for number in 0..count {
        let job = case(seed, number, None).job;
        let workspace = workspace_of(number);
        compare(engine, oracle, &job, workspace, &mut met)
            .map_err(|words| format!("case {number} of seed {seed}: {words}"))?;
    }
    Ok(met)
}
