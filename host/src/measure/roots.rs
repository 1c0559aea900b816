//! The proved square root beside the processor's: values to compare them on, and
//! how long a step of a chain of roots takes.

use std::fmt;
use std::hint::black_box;
use std::time::Instant;

use crate::cases::generator::rng::Rng;

/// Whether the library with the proved root is linked.
pub const LINKED: bool = cfg!(has_root);

/// The library was not there when this crate was built.
#[derive(Clone, Copy, Debug, PartialEq, Eq)]
pub struct NotLinked;

impl fmt::Display for NotLinked {
    fn fmt(&self, f: &mut fmt::Formatter<'_>) -> fmt::Result {
        f.write_str("the proved root is not linked: run './library root', then build again")
    }
}

impl std::error::Error for NotLinked {}

#[cfg(has_root)]
mod linked {
    extern "C" {
        pub fn root_or_nan(x: f64) -> f64;
    }
}

/// The proved root: a value, or a NaN where there is none.
#[cfg(has_root)]
pub fn proved(x: f64) -> f64 {
    // The function takes any float, keeps nothing and touches no memory.
    unsafe { linked::root_or_nan(x) }
}

/// No root without the library.
#[cfg(not(has_root))]
pub fn proved(_x: f64) -> f64 {
    f64::NAN
}

/// The root [3.2] by the processor's: nothing (a NaN) for the infinity.
pub fn expected(x: f64) -> f64 {
    if x == f64::INFINITY {
        return f64::NAN;
    }
    x.sqrt()
}

/// The same bits, or both a NaN.
pub fn same(a: f64, b: f64) -> bool {
    a.to_bits() == b.to_bits() || (a.is_nan() && b.is_nan())
}

/// The bit pattern's neighbour so many places on.
fn beside(x: f64, places: i64) -> f64 {
    f64::from_bits(x.to_bits().wrapping_add_signed(places))
}

/// Ends, middles and neighbours of every exponent, powers of two below the
/// normal range, both signs of the rest.
pub fn special() -> impl Iterator<Item = f64> {
    let digits = [
        0,
        1,
        2,
        (1 << 51) - 1,
        1 << 51,
        (1 << 51) + 1,
        (1 << 52) - 2,
        (1 << 52) - 1,
    ];
    let exponents =
        (0..4096u64).flat_map(move |field| digits.map(|d| f64::from_bits(field << 52 | d)));
    let small = (0..52).flat_map(|k| [-1, 0, 1].map(|d| beside(f64::from_bits(1 << k), d)));
    exponents.chain(small).chain(quarters())
}

/// Both ends of every part of the significands whose first ten digits agree.
fn quarters() -> impl Iterator<Item = f64> {
    (256..1024u64).flat_map(|top| [top << 43, ((top + 1) << 43) - 1].map(|n| n as f64))
}

/// One of several kinds: any bits, any double not below zero, subnormals, near
/// squares, near the squares of midpoints, whole numbers.
pub fn drawn(kind: u64, rng: &mut Rng) -> f64 {
    let near = rng.below(5) as i64 - 2;
    let bits = rng.bits();
    let middling = |rng: &mut Rng| f64::from_bits((513 + bits % 1020) << 52 | rng.bits() >> 12);
    match kind % 6 {
        0 => f64::from_bits(bits),
        1 => f64::from_bits(bits % (2047 << 52)),
        2 => f64::from_bits(bits >> (12 + rng.below(52))),
        3 => {
            let short = !((1u64 << rng.below(52)) - 1);
            let y = f64::from_bits(middling(rng).to_bits() & short);
            beside(y * y, near)
        }
        4 => {
            let y = middling(rng);
            let step = beside(y, 1) - y;
            beside(y.mul_add(y, y * step), near)
        }
        _ => beside((bits >> (11 + rng.below(50))) as f64, near),
    }
}

/// How many values were compared, and those at which a root differs.
pub fn compare(root: impl Fn(f64) -> f64, seed: u64, count: u64) -> (u64, Vec<f64>) {
    let mut rng = Rng::new(seed);
    let drawn = (0..count).map(|kind| drawn(kind, &mut rng));
    let mut compared = 0;
    let wrong = special().chain(drawn).inspect(|_| compared += 1);
    let wrong = wrong.filter(|&x| !same(root(x), expected(x))).collect();
    (compared, wrong)
}

/// Nanoseconds a step of a chain in which each root waits for the one before.
fn step(root: impl Fn(f64) -> f64) -> f64 {
    const STEPS: u32 = 50_000;
    let start = Instant::now();
    let end = (0..STEPS).fold(black_box(1.7), |x, _| root(x) + 1.5);
    black_box(end);
    start.elapsed().as_nanos() as f64 / f64::from(STEPS)
}

/// The best of many short stretches taken in turn, for the proved root, the
/// processor's and none: what else the machine does lengthens some of them.
pub fn latencies() -> [f64; 3] {
    let mut best = [f64::MAX; 3];
    for _ in 0..400 {
        let now = [step(proved), step(f64::sqrt), step(|x| x)];
        for (best, now) in best.iter_mut().zip(now) {
            *best = best.min(now);
        }
    }
    best
}
