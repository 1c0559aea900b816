//! The watch over one run of the original: it counts the examined lists, stops
//! the run at refusals 13 to 16 and notes rare events. The patched functions
//! call it by name, at every depth, so it is kept per thread.

use std::cell::RefCell;
use std::panic::{catch_unwind, resume_unwind, AssertUnwindSafe};

use faceting_register::bounds::{RULE, SOCIETY_RULE};
use faceting_register::{Job, Refusal, Stop};

use crate::engines::judgement::{Bounds, Events, Inner, Orbit};

struct Watch {
    bounds: Bounds,
    rank: usize,
    tolerance: f64,
    rule: u8,
    budget: u32,
    events: Events,
}

thread_local! {
    static WATCH: RefCell<Option<Watch>> = const { RefCell::new(None) };
}

/// Runs a job's call under a fresh watch: the result and the events.
pub fn watched<T>(
    bounds: &Bounds,
    job: &Job,
    run: impl FnOnce() -> T,
) -> (Result<T, Stop>, Events) {
    let watch = Watch {
        bounds: bounds.clone(),
        rank: job.rank.into(),
        tolerance: job.tolerance,
        rule: job.rule,
        budget: job.budget,
        events: Events::default(),
    };
    WATCH.set(Some(watch));
    let result = catch_unwind(AssertUnwindSafe(run)).map_err(|payload| {
        match payload.downcast::<Refusal>() {
            Ok(refusal) => Stop::Refused(*refusal),
            Err(other) => Stop::Broken(panic_words(&*other)),
        }
    });
    let events = WATCH
        .take()
        .map_or_else(Events::default, |watch| watch.events);
    (result, events)
}

fn panic_words(payload: &(dyn std::any::Any + Send)) -> String {
    let words = payload
        .downcast_ref::<&str>()
        .map(|words| words.to_string());
    let words = words.or_else(|| payload.downcast_ref::<String>().cloned());
    words.unwrap_or_else(|| "a panic without words".into())
}

/// Looks at the watch; a refusal then leaves all calls of the run at once, and
/// not by the panic hook, which would print.
fn look(at: impl FnOnce(&mut Watch) -> Result<(), Refusal>) {
    let outcome = WATCH.with_borrow_mut(|watch| watch.as_mut().map_or(Ok(()), at));
    if let Err(refusal) = outcome {
        resume_unwind(Box::new(refusal));
    }
}

fn refuse_if(met: bool, refusal: Refusal) -> Result<(), Refusal> {
    if met {
        Err(refusal)
    } else {
        Ok(())
    }
}

/// The tolerance of the run: the job's.
pub(super) fn tolerance() -> f64 {
    WATCH.with_borrow(|watch| watch.as_ref().map_or(0.0, |w| w.tolerance))
}

/// Whether a set of that many points opens no orbit under the job's rule. The original
/// has no such rule.
pub(super) fn passes_over(rank: usize, points: usize) -> bool {
    let rule = WATCH.with_borrow(|watch| watch.as_ref().map_or(RULE, |w| w.rule));
    rule == SOCIETY_RULE && rank == 3 && points > 2
}

/// A new set of that many points is about to open an orbit.
pub(super) fn opens_orbit(rank: usize, orbits: usize, points: usize) {
    look(|w| {
        refuse_if(orbits >= w.bounds.orbits, Refusal::Orbits)?;
        w.events.crowded_line |= rank == 3 && points > 2;
        w.events.small_set |= points < rank - 1;
        w.events.most_orbits = w.events.most_orbits.max(orbits + 1);
        Ok(())
    })
}

/// An orbit was found; those of the outermost call, which come first and have the
/// highest rank, are kept.
pub(super) fn found_orbit(rank: usize, vertices: &[usize], count: usize) {
    look(|w| {
        let orbits = &mut w.events.orbits;
        if orbits.first().is_none_or(|first| first.rank == rank) {
            let vertices = vertices.to_vec();
            orbits.push(Orbit {
                rank,
                vertices,
                count,
                inner: None,
            });
        }
        Ok(())
    })
}

/// An orbit's first set was refitted with that many basis vectors.
pub(super) fn refitted(rank: usize, vectors: usize) {
    look(|w| {
        w.events.short_refit |= vectors + 2 < rank;
        w.events.long_refit |= vectors + 2 > rank;
        if vectors + 2 != rank {
            keep_inner(&mut w.events.orbits, rank, Inner::Refused);
        }
        refuse_if(vectors + 2 != rank, Refusal::Refit)
    })
}

/// An orbit's inner call is about to be made with these rows.
pub(super) fn calls_inner(rank: usize, rows: &[Vec<usize>]) {
    look(|w| {
        keep_inner(&mut w.events.orbits, rank, Inner::Rows(rows.to_vec()));
        Ok(())
    })
}

/// Orbits have their turn in order; those of the outermost call are kept.
fn keep_inner(orbits: &mut [Orbit], rank: usize, inner: Inner) {
    let due = |orbit: &&mut Orbit| orbit.rank == rank && orbit.inner.is_none();
    if let Some(orbit) = orbits.iter_mut().find(due) {
        orbit.inner = Some(inner);
    }
}

/// An orbit's facets join those of the call.
pub(super) fn stores_facets(stored: usize, more: usize) {
    look(|w| {
        refuse_if(stored + more > w.bounds.facets, Refusal::Facets)?;
        w.events.most_facets = w.events.most_facets.max(stored + more);
        Ok(())
    })
}

/// A facet has one more share in a ridge orbit.
pub(super) fn shares(last: &mut Option<usize>, share: usize) {
    look(|w| {
        w.events.zero_shares |= share == 0;
        w.events.unequal_shares |= last.is_some_and(|other| other != share);
        Ok(())
    });
    *last = Some(share);
}

/// A list was taken from the queue; with it the budget may be passed.
pub(super) fn due<T>(list: Option<T>) -> Option<T> {
    if list.is_some() {
        look(|w| {
            refuse_if(w.events.examined >= w.budget, Refusal::Budget)?;
            w.events.examined += 1;
            Ok(())
        });
    }
    list
}

/// A closed list is about to join that many entries. Those of the outermost call are
/// kept as they are before splitting.
pub(super) fn emits(rank: usize, entries: usize, list: &[(usize, usize)]) {
    look(|w| {
        w.events.too_many_entries |= entries >= w.bounds.entries;
        refuse_if(entries >= w.bounds.entries, Refusal::Facets)?;
        w.events.most_entries = w.events.most_entries.max(entries + 1);
        if rank == w.rank {
            w.events.before.push(list.to_vec());
        }
        Ok(())
    })
}

/// The entries of a call, which have these split lists, are about to be sorted by them,
/// equal ones kept as they came; so are the lists before splitting.
pub(super) fn sorts(rank: usize, split: Vec<&Vec<(usize, usize)>>) {
    look(|w| {
        if rank == w.rank {
            let emitted = std::mem::take(&mut w.events.before);
            let mut order: Vec<usize> = (0..emitted.len()).collect();
            order.sort_by_key(|&number| split[number]);
            w.events.before = order.iter().map(|&k| emitted[k].clone()).collect();
        }
        Ok(())
    })
}
