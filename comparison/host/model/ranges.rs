//! Ranges and states of document 01.

use std::collections::BTreeSet;
use std::fmt::{Display, Formatter};

/// The largest number that a start or an end may be.
pub const TOP: u64 = u32::MAX as u64;

/// A range that is not Empty.
#[derive(Clone, Copy, Debug, PartialEq, Eq)]
pub struct Range {
    pub start: u64,
    pub end: Option<u64>,
}

/// A number passed `TOP` where document 01 refuses that.
#[derive(Debug, PartialEq, Eq)]
pub struct Over;

impl Range {
    pub fn point(value: u64) -> Range {
        Range::between(value, value)
    }

    pub fn between(start: u64, end: u64) -> Range {
        let end = Some(end);
        Range { start, end }
    }

    pub fn from(start: u64) -> Range {
        Range { start, end: None }
    }

    /// Whether the start is over the end, as only a caller's range may be.
    pub fn is_crossed(self) -> bool {
        self.end.map_or(false, |end| self.start > end)
    }

    pub fn join(self, other: Range) -> Range {
        Range {
            start: self.start.min(other.start),
            end: both(self.end, other.end).map(|(a, b)| a.max(b)),
        }
    }

    pub fn plus(self, other: Range) -> Range {
        Range {
            start: TOP.min(self.start + other.start),
            end: both(self.end, other.end)
                .map(|(a, b)| a + b)
                .filter(|sum| *sum <= TOP),
        }
    }

    pub fn times(self, factor: u64) -> Result<Range, Over> {
        let highest = self.end.unwrap_or(self.start);
        if highest * factor > TOP {
            return Err(Over);
        }
        Ok(Range {
            start: self.start * factor,
            end: self.end.map(|end| end * factor),
        })
    }

    pub fn less(self, offset: u64) -> Range {
        Range {
            start: self.start.saturating_sub(offset),
            end: self.end.map(|end| end.saturating_sub(offset)),
        }
    }

    pub fn within(self, other: Range) -> bool {
        let below = match (self.end, other.end) {
            (_, None) => true,
            (None, Some(_)) => false,
            (Some(end), Some(bound)) => end <= bound,
        };
        other.start <= self.start && below
    }

    fn holds(self, value: u64) -> bool {
        self.start <= value && self.end.map_or(true, |end| value <= end)
    }

    pub fn retain(self, set: &BTreeSet<u64>) -> Option<Range> {
        let mut kept = set.iter().copied().filter(|value| self.holds(*value));
        let first = kept.next()?;
        Some(Range::between(first, kept.last().unwrap_or(first)))
    }

    /// `None` where nothing is left.
    pub fn remove(self, set: &BTreeSet<u64>) -> Result<Option<Range>, Over> {
        let start = (self.start..=TOP)
            .find(|value| !set.contains(value))
            .ok_or(Over)?;
        let end = match self.end {
            None => return Ok(Some(Range::from(start))),
            Some(end) => (start..=end).rev().find(|value| !set.contains(value)),
        };
        Ok(end.map(|end| Range::between(start, end)))
    }

    pub fn widen(self, new: Range) -> Range {
        let end = both(self.end, new.end).filter(|(end, new_end)| new_end <= end);
        Range {
            start: if self.start > new.start {
                0
            } else {
                self.start
            },
            end: end.map(|(end, _)| end),
        }
    }
}

fn both(a: Option<u64>, b: Option<u64>) -> Option<(u64, u64)> {
    Some((a?, b?))
}

impl Display for Range {
    fn fmt(&self, f: &mut Formatter<'_>) -> std::fmt::Result {
        match self.end {
            None => write!(f, "{{{}, ...}}", self.start),
            Some(end) if end == self.start => write!(f, "{{{}}}", end),
            Some(end) => write!(f, "{{{}, ..., {}}}", self.start, end),
        }
    }
}

#[derive(Clone, Debug, PartialEq, Eq)]
pub enum State {
    Empty,
    Live(Vec<Range>),
}

impl State {
    pub fn is_live(&self) -> bool {
        matches!(self, State::Live(_))
    }

    /// `None` in an empty state.
    pub fn get(&self, variable: usize) -> Option<Range> {
        match self {
            State::Empty => None,
            State::Live(ranges) => Some(ranges[variable]),
        }
    }

    pub fn set(mut self, variable: usize, range: Option<Range>) -> State {
        match (&mut self, range) {
            (State::Empty, _) | (_, None) => State::Empty,
            (State::Live(ranges), Some(range)) => {
                ranges[variable] = range;
                self
            }
        }
    }

    pub fn join(&self, other: &State) -> State {
        match (self, other) {
            (State::Empty, state) | (state, State::Empty) => state.clone(),
            (State::Live(a), State::Live(b)) => State::Live(each(a, b, Range::join)),
        }
    }

    pub fn within(&self, other: &State) -> bool {
        match (self, other) {
            (State::Empty, _) => true,
            (_, State::Empty) => false,
            (State::Live(a), State::Live(b)) => a.iter().zip(b).all(|(a, b)| a.within(*b)),
        }
    }

    /// Only states that are not empty come to widening: an empty one is within any other.
    pub fn widen(&self, new: &State) -> State {
        match (self, new) {
            (State::Live(a), State::Live(b)) => State::Live(each(a, b, Range::widen)),
            _ => unreachable!("widening of an empty state"),
        }
    }
}

fn each(a: &[Range], b: &[Range], change: impl Fn(Range, Range) -> Range) -> Vec<Range> {
    a.iter().zip(b).map(|(a, b)| change(*a, *b)).collect()
}

impl Display for State {
    fn fmt(&self, f: &mut Formatter<'_>) -> std::fmt::Result {
        match self {
            State::Empty => write!(f, "empty"),
            State::Live(ranges) => {
                let ranges: Vec<String> = ranges.iter().map(Range::to_string).collect();
                write!(f, "{}", ranges.join(", "))
            }
        }
    }
}
