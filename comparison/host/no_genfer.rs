//! Stands for `genfer_side` where genfer's sources are not there: never asked, since `PRESENT` is false.

use crate::answers::{Genfer, LoopEnd};
use crate::model::Start;

pub const PRESENT: bool = false;

const ABSENT: &str = "genfer's sources were not there when this host was built";

pub struct Ready;

impl Ready {
    pub fn line(&self) -> String {
        unreachable!("{}", ABSENT)
    }
}

pub fn silence_panics() {}

pub fn ready(_: &[u64]) -> Ready {
    unreachable!("{}", ABSENT)
}

pub fn answer(_: &[u64]) -> Genfer {
    unreachable!("{}", ABSENT)
}

pub fn answer_from(_: &[u64], _: &Start) -> Genfer {
    unreachable!("{}", ABSENT)
}

pub fn trail(_: &[u64]) -> Vec<u64> {
    unreachable!("{}", ABSENT)
}

pub fn last_loop(_: &[u64], _: u64) -> Option<LoopEnd> {
    unreachable!("{}", ABSENT)
}

pub fn variable_name(_: u64) -> String {
    unreachable!("{}", ABSENT)
}
