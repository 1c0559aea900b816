//! Jobs with packages beside the original called with that package; which orbits are
//! kept, and which choices, worked out a second time from what the text of the request
//! says.

use std::collections::{BTreeMap, BTreeSet};

use faceting_register::{noble, Answer, Engine, Job, Package, Refusal, Stop};

use super::workspace_of;
use crate::cases::generator::case;
use crate::cases::generator::packages::package;
use crate::engines::judgement::{Judgement, Orbit};
use crate::engines::oracle::Oracle;
use crate::symmetry::Carried;

/// What stands in a buffer before a call.
const POISON: u8 = 0xa5;

/// What was met.
#[derive(Clone, Copy, Debug, Default, PartialEq, Eq)]
pub struct Met {
    /// Packages that were compared.
    pub packages: usize,
    /// Calls that were made.
    pub calls: usize,
    /// Jobs that were refused, for the package or else.
    pub refused: usize,
    /// Those that were refused for the package.
    pub for_the_package: usize,
    /// Orbits of those that were answered, and those of them that were dropped.
    pub orbits: usize,
    /// Orbits that were dropped.
    pub dropped: usize,
    /// Jobs in which a later mark took the place of an earlier one.
    pub marked_anew: usize,
    /// Entries of all answers.
    pub entries: usize,
    /// Those of jobs whose rows are closed under composition, each carried to itself.
    pub carried: usize,
    /// Answers whose choices were held to those of the call without a package.
    pub held: usize,
    /// Choices of such calls that have another inside, and are not listed.
    pub not_minimal: usize,
}

/// A call in a poisoned buffer of this length has this code and these bytes, with zeros
/// behind them.
pub fn gives(
    engine: &mut dyn Engine,
    (job, package, workspace): (&[u8], &[u8], usize),
    room: usize,
    code: i64,
    bytes: &[u8],
) -> Result<(), String> {
    let mut buffer = vec![POISON; room];
    let got = engine.noble(job, package, workspace, &mut buffer);
    if got != Some(code) {
        return Err(format!("code {got:?} in place of {code}, room {room}"));
    }
    if !buffer.starts_with(bytes) || buffer[bytes.len()..].iter().any(|byte| *byte != 0) {
        return Err(format!("another buffer, code {code}, room {room}"));
    }
    Ok(())
}

/// Which orbits a package keeps, and whether some key was marked anew.
pub fn kept(package: &Package, orbits: &[Orbit]) -> (Vec<bool>, bool) {
    let mut marks: BTreeMap<Vec<u8>, usize> = BTreeMap::new();
    // Of each tally how many images its key has, and its sum.
    let mut tallies: Vec<(usize, usize)> = Vec::new();
    let mut anew = false;
    let key = |orbit: &Orbit| {
        let mut key: Vec<u8> = orbit.vertices.iter().map(|&v| package.global[v]).collect();
        key.sort_unstable();
        key
    };
    let share = |orbit: &Orbit, images: usize| usize::from(package.count) * orbit.count / images;
    for orbit in orbits {
        let key = key(orbit);
        if let Some(&tally) = marks.get(&key) {
            let (images, sum) = tallies[tally];
            tallies[tally] = (images, sum + share(orbit, images));
            continue;
        }
        let image = |row: &Vec<u8>| {
            let mut image: Vec<u8> = key.iter().map(|&v| row[usize::from(v)]).collect();
            image.sort_unstable();
            image
        };
        let images: BTreeSet<Vec<u8>> = package.rows.iter().map(image).collect();
        tallies.push((images.len(), share(orbit, images.len())));
        for image in images {
            anew |= marks.insert(image, tallies.len() - 1).is_some();
        }
    }
    let enough = |orbit| tallies[marks[&key(orbit)]].1 >= 2;
    (orbits.iter().map(enough).collect(), anew)
}

/// The facets of each entry's choice, ascending.
fn choices(answer: &Answer) -> Vec<BTreeSet<(u32, u32)>> {
    let choice = |entry: &faceting_register::Entry| entry.before.iter().copied().collect();
    answer.entries.iter().map(choice).collect()
}

/// Those that have none of the others properly inside, each once.
fn minimal(choices: &[BTreeSet<(u32, u32)>]) -> BTreeSet<&BTreeSet<(u32, u32)>> {
    let inside = |a: &BTreeSet<(u32, u32)>| choices.iter().any(|b| b != a && b.is_subset(a));
    choices.iter().filter(|choice| !inside(choice)).collect()
}

/// Without a limit and with equal shares: no listed choice has another inside and none
/// stands twice; and where all orbits are kept, they are those of the call without a
/// package that have none inside.
fn hold(
    oracle: &Oracle,
    job: &Job,
    answer: &Answer,
    all_kept: bool,
    met: &mut Met,
) -> Result<(), String> {
    let listed = choices(answer);
    if minimal(&listed).len() != listed.len() {
        return Err("a choice stands twice or has another inside".into());
    }
    if !all_kept {
        return Ok(());
    }
    let whole = oracle.judge(&job.write(), usize::MAX);
    let Ok(whole) = whole.result else {
        return Ok(());
    };
    let closed = choices(&whole);
    let least = minimal(&closed);
    met.held += 1;
    met.not_minimal += closed.len() - least.len();
    match listed.iter().collect::<BTreeSet<_>>() == least {
        true => Ok(()),
        false => Err("other choices than those of the call without a package".into()),
    }
}

/// One job with one package: in a buffer that is exactly full, in a longer one, and one
/// byte short; a refused one in none and in a small one.
pub fn compare(
    engine: &mut dyn Engine,
    oracle: &Oracle,
    (job, package, workspace): (&[u8], &[u8], usize),
    met: &mut Met,
) -> Result<(), String> {
    met.packages += 1;
    let asked = (job, package, workspace);
    let judged = oracle.judge_noble(job, package, workspace);
    let answer = match &judged.result {
        Err(Stop::Broken(words)) => return Err(format!("the original panicked: {words}")),
        Err(Stop::Refused(refusal)) => {
            met.refused += 1;
            met.for_the_package += usize::from(*refusal == Refusal::Package);
            met.calls += 2;
            gives(engine, asked, 0, refusal.code(), &[])?;
            return gives(engine, asked, 27, refusal.code(), &[]);
        }
        Ok(answer) => answer,
    };
    let written = answer.bytes();
    let length = written.len();
    met.calls += 3;
    gives(engine, asked, length, length as i64, &written)?;
    gives(engine, asked, length + 13, length as i64, &written)?;
    gives(engine, asked, length - 1, Refusal::Room.code(), &[])?;
    let (job, package) = noble::accept(job, package, workspace).map_err(|r| r.to_string())?;
    met.entries += answer.entries.len();
    match job.rank {
        2 => Ok(()),
        _ => look_again(oracle, (&job, &package), &judged, answer, met),
    }
}

/// What is promised of an answer, worked out a second time: which orbits are kept, that
/// closed rows carry each figure to itself, and which choices are listed.
fn look_again(
    oracle: &Oracle,
    (job, package): (&Job, &Package),
    judged: &Judgement,
    answer: &Answer,
    met: &mut Met,
) -> Result<(), String> {
    if let Some(carried) = Carried::of(job, answer).filter(|carried| carried.closed) {
        carried.broken().map_or(Ok(()), Err)?;
        met.carried += carried.elsewhere.len();
    }
    let orbits = &judged.events.orbits;
    let (kept, anew) = kept(package, orbits);
    let counts = orbits.iter().zip(&kept).filter(|(_, kept)| **kept);
    let counts: Vec<u32> = counts.map(|(orbit, _)| orbit.count as u32).collect();
    if counts != answer.counts {
        return Err("other orbits are kept".into());
    }
    met.orbits += kept.len();
    met.dropped += kept.len() - counts.len();
    met.marked_anew += usize::from(anew);
    if job.limit.is_some() || judged.events.unequal_shares {
        return Ok(());
    }
    hold(oracle, job, answer, counts.len() == kept.len(), met)
}

/// Generated jobs, whole and damaged, of every rank, each with a generated package, with
/// workspaces of every rank's length and one byte less.
pub fn compare_generated(
    engine: &mut dyn Engine,
    oracle: &Oracle,
    seed: u64,
    count: usize,
) -> Result<Met, String> {
    let mut met = Met::default();
    for number in 0..count {
        let job = case(seed, number, None).job;
        let package = package(seed, number, &job);
        let workspace = workspace_of(number);
        compare(engine, oracle, (&job, &package, workspace), &mut met)
            .map_err(|words| format!("case {number} of seed {seed}: {words}"))?;
    }
    Ok(met)
}
