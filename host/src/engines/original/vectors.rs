//! Stand-ins for the vector library, [3.4] to [3.6]: each operation is rounded
//! once, none fused. Also the clock, which stands still.

use std::ops::{Add, AddAssign, Div, Mul, Sub};
use std::time::Duration;

use super::watch;

/// What the original asks of a number.
pub trait Float:
    'static
    + Copy
    + PartialOrd
    + Add<Output = Self>
    + Sub<Output = Self>
    + Mul<Output = Self>
    + Div<Output = Self>
{
    const ZERO: Self;

    fn root(self) -> Self;

    /// The original's constant EPS, as a value of the run.
    fn tolerance() -> Self;
}

impl Float for f64 {
    const ZERO: f64 = 0.0;

    fn root(self) -> f64 {
        self.sqrt()
    }

    fn tolerance() -> f64 {
        watch::tolerance()
    }
}

/// A vector of any length.
#[derive(Clone)]
pub struct Point<T>(Vec<T>);

/// The same, by its other name.
pub type Vector<T> = Point<T>;

impl<T: Copy> From<&Vec<T>> for Point<T> {
    fn from(numbers: &Vec<T>) -> Self {
        Self(numbers.clone())
    }
}

impl<T: Float> Point<T> {
    /// The vector of these numbers.
    pub fn from_iterator(_rows: usize, numbers: impl Iterator<Item = T>) -> Self {
        Self(numbers.collect())
    }

    /// How many numbers it has.
    pub fn nrows(&self) -> usize {
        self.0.len()
    }

    /// From +0, the products are added in index order.
    pub fn dot(&self, other: &Self) -> T {
        let products = self.0.iter().zip(&other.0).map(|(&a, &b)| a * b);
        products.fold(T::ZERO, |sum, product| sum + product)
    }

    /// Its length.
    pub fn norm(&self) -> T {
        self.dot(self).root()
    }

    /// Divides by the norm and returns it.
    pub fn normalize_mut(&mut self) -> T {
        let norm = self.norm();
        self.0
            .iter_mut()
            .for_each(|number| *number = *number / norm);
        norm
    }

    fn minus(&self, other: &Self) -> Self {
        Self(self.0.iter().zip(&other.0).map(|(&a, &b)| a - b).collect())
    }
}

impl<T: Float> Sub<&Point<T>> for &Point<T> {
    type Output = Point<T>;

    fn sub(self, other: &Point<T>) -> Point<T> {
        self.minus(other)
    }
}

impl<T: Float> Sub<Point<T>> for &Point<T> {
    type Output = Point<T>;

    fn sub(self, other: Point<T>) -> Point<T> {
        self.minus(&other)
    }
}

impl<T: Float> Mul<T> for &Point<T> {
    type Output = Point<T>;

    fn mul(self, factor: T) -> Point<T> {
        Point(self.0.iter().map(|&number| number * factor).collect())
    }
}

impl<T: Float> AddAssign<Point<T>> for Point<T> {
    fn add_assign(&mut self, other: Point<T>) {
        let pairs = self.0.iter_mut().zip(other.0);
        pairs.for_each(|(number, gain)| *number = *number + gain);
    }
}

/// A point as the original keeps it in lists; its fuzzy order is never used.
#[derive(Clone)]
pub struct PointOrd<T>(pub Point<T>);

impl<T> PointOrd<T> {
    /// The point.
    pub fn new(point: Point<T>) -> Self {
        Self(point)
    }
}

/// The original looks at the clock only to print, which it is never asked to.
pub struct Instant;

impl Instant {
    /// The clock stands still.
    pub fn now() -> Self {
        Self
    }

    /// No time passes.
    pub fn elapsed(&self) -> Duration {
        Duration::ZERO
    }
}
