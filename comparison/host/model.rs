//! An independent model of document 01, in plain Rust: the line that is to be printed for any text.
//! Written from that document and from the decisions taken on it, not from Woolquern's code.

pub mod ranges;
pub mod reader;
pub mod rules;
pub mod text;
pub mod tree;

use ranges::{Range, State};
use rules::{Analysis, LoopAnswer, Stop};
use std::collections::BTreeSet;
use std::fmt::{Display, Formatter};
use tree::Program;

#[derive(Clone, Copy, Debug, PartialEq, Eq)]
pub struct Refusal {
    pub number: u8,
    pub place: usize,
}

impl Refusal {
    pub fn new(number: u8, place: usize) -> Refusal {
        Refusal { number, place }
    }
}

/// The most that is allowed.
#[derive(Clone, Debug)]
pub struct Limits {
    pub bytes: usize,
    pub words: usize,
    pub variables: u64,
    pub depth: u64,
    pub loops: u64,
    pub values: u64,
    pub given: u64,
    pub unroll: u64,
    pub enumerated: u64,
}

impl Limits {
    pub fn of_document() -> Limits {
        Limits {
            bytes: 65_536,
            words: 8_192,
            variables: 64,
            depth: 16,
            loops: 3,
            values: 256,
            given: 8,
            unroll: 10_000,
            enumerated: 4_096,
        }
    }

    /// None that a program of these comparisons meets: genfer has no limits.
    pub fn lifted() -> Limits {
        Limits {
            bytes: 1 << 24,
            words: 1 << 20,
            variables: 1 << 10,
            depth: 1 << 10,
            loops: 1 << 10,
            values: 1 << 20,
            given: 1 << 10,
            unroll: 1 << 20,
            enumerated: 1 << 20,
        }
    }
}

#[derive(Debug, PartialEq, Eq)]
pub enum Outcome {
    State(State),
    Refused(Refusal),
    /// More steps than the host allows to one program: no answer.
    TooLong,
}

impl Display for Outcome {
    fn fmt(&self, f: &mut Formatter<'_>) -> std::fmt::Result {
        match self {
            Outcome::State(state) => write!(f, "{}", state),
            Outcome::Refused(Refusal { number, place }) => {
                write!(f, "refused {} at {}", number, place)
            }
            Outcome::TooLong => write!(f, "no answer within the steps allowed"),
        }
    }
}

/// What the model says of one program.
pub struct Answer {
    pub outcome: Outcome,
    /// The words and their tree, where they are a program within the limits.
    pub accepted: Option<Accepted>,
}

pub struct Accepted {
    pub words: Vec<u64>,
    pub program: Program,
    pub trail: Vec<u64>,
    pub loops: Vec<LoopAnswer>,
}

impl Accepted {
    /// The lists that no pass entered with a state that is not empty.
    pub fn dead_lists(&self) -> Vec<usize> {
        let entered: BTreeSet<u64> = self.trail.iter().copied().collect();
        let mut lists = self.program.entered_lists();
        lists.retain(|place| !entered.contains(&(*place as u64)));
        lists
    }

    /// A byte for each word: 1 at the count of a list that a pass entered.
    pub fn marks(&self) -> Vec<u8> {
        let dead = self.dead_lists();
        let mut marks = vec![0; self.words.len()];
        for place in self.program.entered_lists() {
            marks[place] = u8::from(dead.binary_search(&place).is_err());
        }
        marks
    }
}

impl Answer {
    fn refused(refusal: Refusal) -> Answer {
        Answer {
            outcome: Outcome::Refused(refusal),
            accepted: None,
        }
    }
}

/// What the caller of the analysis gives beside the words; `None` is an Empty range.
#[derive(Debug)]
pub struct Start {
    pub ranges: Vec<Option<Range>>,
    pub unroll: u64,
}

impl Start {
    /// What the program takes: zeros and no unrolling.
    pub fn zero(variables: usize) -> Start {
        Start {
            ranges: vec![Some(Range::point(0)); variables],
            unroll: 0,
        }
    }

    /// Refusals in their order: the list's length, n, the default unroll, a start over its end.
    fn state(&self, words: &[u64], limits: &Limits) -> Result<State, Refusal> {
        let too_many = words.len() > limits.words || self.ranges.len() as u64 > limits.variables;
        if too_many || self.unroll > limits.unroll {
            return Err(Refusal::new(4, 0));
        }
        let crossed = |range: &Option<Range>| range.map_or(false, Range::is_crossed);
        if let Some(variable) = self.ranges.iter().position(crossed) {
            return Err(Refusal::new(7, variable));
        }
        let ranges: Option<Vec<Range>> = self.ranges.iter().copied().collect();
        Ok(ranges.map_or(State::Empty, State::Live))
    }
}

/// The model's answer to a text, if that takes no more than so many steps.
pub fn of_text(text: &[u8], limits: &Limits, steps: u64) -> Answer {
    match text::words(text, limits) {
        Err(refusal) => Answer::refused(refusal),
        Ok(words) => of_words(words, limits, steps),
    }
}

/// The words are checked with the most variables first, then with as many as they use.
fn of_words(words: Vec<u64>, limits: &Limits, steps: u64) -> Answer {
    match reader::program(&words, limits.variables, limits) {
        Err(refusal) => Answer::refused(refusal),
        Ok(program) => from_start(words, &Start::zero(program.used), limits, steps),
    }
}

/// The loop's own entry: the model's answer to a text whose one statement is a loop, with that
/// default unroll.
pub fn of_loop(text: &[u8], unroll: u64, limits: &Limits, steps: u64) -> Answer {
    match words_of_loop(text, unroll, limits) {
        Err(refusal) => Answer::refused(refusal),
        Ok((words, start)) => from_start(words, &start, limits, steps),
    }
}

/// Refusals in their order: the text, its words, the default unroll, a program that is not one loop.
fn words_of_loop(text: &[u8], unroll: u64, limits: &Limits) -> Result<(Vec<u64>, Start), Refusal> {
    let words = text::words(text, limits)?;
    let program = reader::program(&words, limits.variables, limits)?;
    let start = Start {
        unroll,
        ..Start::zero(program.used)
    };
    start.state(&words, limits)?;
    for (place, word) in [1, 5].into_iter().enumerate() {
        if words[place] != word {
            return Err(Refusal::new(3, place));
        }
    }
    Ok((words, start))
}

/// The analysis of words from the caller's ranges.
pub fn from_start(words: Vec<u64>, start: &Start, limits: &Limits, steps: u64) -> Answer {
    let variables = start.ranges.len() as u64;
    let checked = start.state(&words, limits);
    let checked = checked.and_then(|state| {
        reader::program(&words, variables, limits).map(|program| (state, program))
    });
    let (state, program) = match checked {
        Err(refusal) => return Answer::refused(refusal),
        Ok(checked) => checked,
    };
    let mut analysis = Analysis::new(limits, start.unroll, steps);
    let outcome = match analysis.list(&program.statements, state) {
        Ok(state) => Outcome::State(state),
        Err(Stop::Refused(refusal)) => Outcome::Refused(refusal),
        Err(Stop::TooLong) => Outcome::TooLong,
    };
    Answer {
        outcome,
        accepted: Some(Accepted {
            words,
            program,
            trail: analysis.trail,
            loops: analysis.loops,
        }),
    }
}
