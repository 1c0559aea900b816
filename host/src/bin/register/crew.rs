//! Several workers on many sets: a call keeps nothing, so calls run side by side. What
//! they come to is told in the order of the sets.

use std::collections::BTreeMap;
use std::sync::atomic::{AtomicUsize, Ordering};
use std::sync::mpsc;
use std::thread;

/// Does the work for each number below `count`, in so many workers with a tool of their
/// own each, and hands over what came of it in the order of the numbers. Ends early
/// where that fails.
pub fn each<Tool, T: Send>(
    workers: usize,
    count: usize,
    tool: impl Fn() -> Tool + Sync,
    work: impl Fn(&mut Tool, usize) -> T + Sync,
    mut done: impl FnMut(usize, T) -> Result<(), String>,
) -> Result<(), String> {
    let next = AtomicUsize::new(0);
    let (give, take) = mpsc::channel();
    thread::scope(|scope| {
        for _ in 0..workers.clamp(1, count.max(1)) {
            let (give, next, tool, work) = (give.clone(), &next, &tool, &work);
            scope.spawn(move || {
                let mut tool = tool();
                while let Some(number) = taken(next, count) {
                    if give.send((number, work(&mut tool, number))).is_err() {
                        return;
                    }
                }
            });
        }
        drop(give);
        let told = in_order(take, &mut done);
        next.store(count, Ordering::Relaxed);
        told
    })
}

/// The next number that nobody has taken.
fn taken(next: &AtomicUsize, count: usize) -> Option<usize> {
    let step = |number| (number < count).then_some(number + 1);
    next.fetch_update(Ordering::Relaxed, Ordering::Relaxed, step)
        .ok()
}

fn in_order<T>(
    take: mpsc::Receiver<(usize, T)>,
    done: &mut impl FnMut(usize, T) -> Result<(), String>,
) -> Result<(), String> {
    let mut waiting = BTreeMap::new();
    let mut due = 0;
    for (number, made) in take {
        waiting.insert(number, made);
        while let Some(made) = waiting.remove(&due) {
            done(due, made)?;
            due += 1;
        }
    }
    Ok(())
}

#[cfg(test)]
mod tests {
    use super::*;
    use std::time::Duration;

    #[test]
    fn everything_is_done_once_and_told_in_order() {
        for workers in [0, 1, 2, 7, 200] {
            let mut told = Vec::new();
            let work = |made: &mut usize, number: usize| {
                thread::sleep(Duration::from_micros(7 * (number as u64 * 13 % 11)));
                *made += 1;
                number * number
            };
            let ended = each(
                workers,
                100,
                || 0,
                work,
                |number, made| {
                    told.push((number, made));
                    Ok(())
                },
            );
            assert_eq!(ended, Ok(()));
            assert_eq!(told, (0..100).map(|n| (n, n * n)).collect::<Vec<_>>());
        }
    }

    #[test]
    fn a_failure_ends_it() {
        let begun = AtomicUsize::new(0);
        let work = |_: &mut (), number| {
            begun.fetch_add(1, Ordering::Relaxed);
            thread::sleep(Duration::from_millis(1));
            number
        };
        let ended = each(
            2,
            1_000,
            || (),
            work,
            |number, _| match number {
                3 => Err("no".into()),
                _ => Ok(()),
            },
        );
        assert_eq!(ended, Err("no".into()));
        assert!(begun.into_inner() < 100);
        assert_eq!(each(2, 0, || (), |_, number| number, |_, _| Ok(())), Ok(()));
    }
}
