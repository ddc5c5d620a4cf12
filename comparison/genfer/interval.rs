//! Stand-in for genfer's intervals: `SupportSet::to_interval` has to compile and is never run.

pub struct Interval<T> {
    pub lo: T,
    pub hi: T,
}

impl<T> Interval<T> {
    pub fn exact(lo: T, hi: T) -> Self {
        Interval { lo, hi }
    }
}
