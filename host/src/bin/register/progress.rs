//! How far a long run is: a line on standard error every few seconds, with what is left.

use std::time::{Duration, Instant};

use crate::output;

/// Between two lines.
const PAUSE: Duration = Duration::from_secs(5);

/// Sets that are done, and since when.
pub struct Progress {
    all: usize,
    done: usize,
    begun: Instant,
    told: Instant,
    quiet: bool,
}

impl Progress {
    /// Nothing is done yet.
    pub fn of(all: usize, quiet: bool) -> Progress {
        let now = Instant::now();
        Progress {
            all,
            done: 0,
            begun: now,
            told: now,
            quiet,
        }
    }

    /// One more is done.
    pub fn step(&mut self) {
        self.done += 1;
        if self.quiet || self.done == self.all || self.told.elapsed() < PAUSE {
            return;
        }
        self.told = Instant::now();
        let line = words(self.done, self.all, self.begun.elapsed());
        output::tell(&format!("register: {line}\n"));
    }
}

fn words(done: usize, all: usize, took: Duration) -> String {
    let left = took.as_secs_f64() / done as f64 * (all - done) as f64;
    let left = match left.round() as u64 {
        seconds @ 0..=99 => format!("{seconds} s"),
        seconds => format!("{} min", seconds.div_ceil(60)),
    };
    format!("{done} of {all} sets are done, about {left} left")
}

#[cfg(test)]
mod tests {
    use super::*;

    #[test]
    fn what_is_left_goes_by_what_it_took() {
        let told = |done, all, seconds| words(done, all, Duration::from_secs(seconds));
        assert_eq!(
            told(500, 2_000, 10),
            "500 of 2000 sets are done, about 30 s left"
        );
        assert_eq!(
            told(1, 1_000, 6),
            "1 of 1000 sets are done, about 100 min left"
        );
    }
}
