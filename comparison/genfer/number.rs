//! Stand-ins for genfer's numbers and for the crate `num-traits`.
//!
//! `Rational` is one `f64`; genfer's own holds numbers of any size. So every `SupportSet` is smaller
//! and quicker to copy here than in genfer itself, which favours genfer in the benchmark.

use std::cell::RefCell;
use std::fmt::{Display, Formatter};
use std::ops::{Add, Mul, MulAssign, Sub};

pub trait Zero {
    fn zero() -> Self;
}

pub trait One {
    fn one() -> Self;
}

pub trait Number: Clone + Zero + One + From<u32> + Sub<Output = Self> + MulAssign {
    fn from_ratio(numer: u64, denom: u64) -> Self;
}

pub trait FloatNumber: Number {
    fn infinity() -> Self;
    fn is_infinite(&self) -> bool;
}

pub trait IntervalNumber: FloatNumber {}

#[derive(Clone, Debug, PartialEq, PartialOrd)]
pub struct Rational(f64);

impl Rational {
    pub fn from_int(value: u32) -> Self {
        Rational(f64::from(value))
    }

    pub fn min(&self, other: &Self) -> Self {
        Rational(self.0.min(other.0))
    }

    pub fn max(&self, other: &Self) -> Self {
        Rational(self.0.max(other.0))
    }

    /// Asked for by `SupportSet::to_interval` alone, which is never run.
    pub fn to_ratio(&self) -> Option<(i64, u64)> {
        None
    }
}

impl Number for Rational {
    fn from_ratio(numer: u64, denom: u64) -> Self {
        if denom == TRAIL {
            TRAIL_LEFT.with(|trail| trail.borrow_mut().push(numer));
        }
        Rational(numer as f64 / denom as f64)
    }
}

impl FloatNumber for Rational {
    fn infinity() -> Self {
        Rational(f64::INFINITY)
    }

    fn is_infinite(&self) -> bool {
        self.0.is_infinite()
    }
}

impl Zero for Rational {
    fn zero() -> Self {
        Rational(0.0)
    }
}

impl One for Rational {
    fn one() -> Self {
        Rational(1.0)
    }
}

impl From<u32> for Rational {
    fn from(value: u32) -> Self {
        Rational::from_int(value)
    }
}

impl Add for Rational {
    type Output = Self;

    fn add(self, other: Self) -> Self {
        Rational(self.0 + other.0)
    }
}

impl Sub for Rational {
    type Output = Self;

    fn sub(self, other: Self) -> Self {
        Rational(self.0 - other.0)
    }
}

impl Mul for Rational {
    type Output = Self;

    fn mul(self, other: Self) -> Self {
        Rational(self.0 * other.0)
    }
}

impl MulAssign for Rational {
    fn mul_assign(&mut self, other: Self) {
        self.0 *= other.0;
    }
}

impl Display for Rational {
    fn fmt(&self, f: &mut Formatter<'_>) -> std::fmt::Result {
        write!(f, "{}", self.0)
    }
}

/// A ratio with this denominator leaves its numerator on a trail. Genfer makes a draw's ratios when
/// it comes to the draw with a state that is not empty, so such draws show the way that it went.
pub const TRAIL: u64 = 3;

thread_local! {
    static TRAIL_LEFT: RefCell<Vec<u64>> = RefCell::new(Vec::new());
}

/// The numerators left since this was last asked.
pub fn take_trail() -> Vec<u64> {
    TRAIL_LEFT.with(|trail| trail.take())
}
