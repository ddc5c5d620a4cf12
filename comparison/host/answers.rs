//! What genfer is heard to say.

#[derive(Clone, Debug, PartialEq, Eq)]
pub enum Genfer {
    /// Its own printing of the state that it returned.
    Returned(String),
    /// The message of its panic.
    Stopped(String),
}

/// The messages of genfer's panics: an assignment's product, the `v + 1` of a set test, and a given
/// variable without a finite range.
pub const MULTIPLIES: &str = "attempt to multiply with overflow";
pub const ADDS: &str = "attempt to add with overflow";

pub fn cannot_normalize(variable: &str) -> String {
    let why = "because its value could not be proven to be bounded";
    format!(
        "Cannot normalize with respect to variable `{}`, {}.",
        variable, why
    )
}

/// How genfer's analysis of a loop went.
#[derive(Debug, PartialEq, Eq)]
pub struct LoopEnd {
    /// The index at which the search stopped.
    pub index: Option<u64>,
    /// The printed state that the loop settled on.
    pub settled: String,
}
