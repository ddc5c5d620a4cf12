//! The inputs of docs/DIFFERENCES.md with both answers, so that every run verifies that page.

use crate::answers::{cannot_normalize, Genfer, ADDS, MULTIPLIES};
use crate::cases::STEPS;
use crate::genfer_side;
use crate::model::ranges::Range;
use crate::model::{self, text, Limits, Start};

pub struct Difference {
    pub text: String,
    /// What the caller of the library gives, where no text can.
    start: Option<Start>,
    /// Woolquern's.
    line: &'static str,
    genfer: Genfer,
}

const NO_SUCH_VARIABLE: &str = "index out of bounds: the len is 0 but the index is 0";

/// Inputs that are texts.
pub fn of_texts() -> Vec<Difference> {
    let mut all = stops();
    all.extend(limits());
    all.extend(continuous());
    all
}

/// Genfer panics, Woolquern refuses.
fn stops() -> Vec<Difference> {
    let unbounded = &cannot_normalize("a");
    vec![
        stops_with(
            "[2,1,0,0,5,65536,2,0,0,1,65536,0,0]",
            "refused 8 at 6",
            MULTIPLIES,
        ),
        stops_with(
            "[2,1,0,0,1,4294967295,1,4,1,0,1,4294967295,0,0]",
            "refused 8 at 8",
            ADDS,
        ),
        stops_with(
            "[2,1,0,0,12,4294967294,4294967295,4,1,0,2,4294967294,4294967295,0,0]",
            "refused 8 at 8",
            ADDS,
        ),
        stops_with("[2,1,0,0,9,7,1,0,0]", "refused 9 at 7", unbounded),
        stops_with("[2,6,7,1,0,1,3,0,0]", "refused 9 at 4", unbounded),
        stops_with("[1,7,1,0,0]", "refused 5 at 3", NO_SUCH_VARIABLE),
        stops_with("[2,6,7,1,0,0]", "refused 5 at 4", unbounded),
        stops_with(
            "[3,1,0,0,5,4096,1,1,0,9,7,2,0,1,0]",
            "refused 10 at 12",
            &cannot_normalize("b"),
        ),
        stops_with(
            "[3,1,0,0,5,65536,2,0,0,1,65536,0,0,1,0,0,13]",
            "refused 6 at 16",
            MULTIPLIES,
        ),
    ]
}

/// Genfer has no limits.
fn limits() -> Vec<Difference> {
    let zeros = |count: usize| vec!["0"; count].join(",");
    let many_variables = vec!["{0}"; 65].join(", ");
    let many_values = format!("[1,4,1,0,257,{},0,0]", zeros(257));
    vec![
        returns("[1,3,64,0]", "refused 5 at 2", &many_variables),
        returns(
            "[1,4,4,4,4,4,4,4,4,4,4,4,4,4,4,4,4,4,5,0,0,0]",
            "refused 4 at 18",
            "",
        ),
        returns(
            "[1,5,0,0,5,0,1,5,0,0,5,0,1,5,0,0,5,0,1,5,0,0,5,0,0]",
            "refused 4 at 19",
            "empty",
        ),
        returns(&many_values, "refused 4 at 4", "{0}"),
        returns("[1,7,9,0,0,0,0,0,0,0,0,0,1,3,0,0]", "refused 4 at 2", "{0}"),
        returns("[1,5,1,10001,5,0,0]", "refused 4 at 3", "empty"),
        returns(&many_statements(), "refused 2 at 0", "empty"),
        returns(
            "[2,1,0,0,5,4096,7,1,0,0]",
            "refused 10 at 8",
            "{0, ..., 4096}",
        ),
    ]
}

/// Genfer goes on with intervals, which print here as our stand-in for `Rational` does.
fn continuous() -> Vec<Difference> {
    vec![
        returns("[1,1,0,0,13]", "refused 6 at 4", "[0, ∞)"),
        returns("[1,1,0,0,14]", "refused 6 at 4", "[0, ∞)"),
        returns("[1,1,0,0,15]", "refused 6 at 4", "[0, 1]"),
        returns("[1,1,0,0,1,1,2]", "refused 6 at 6", "[0.5, 0.5]"),
        returns(
            "[1,1,0,0,1,4294967296,1]",
            "refused 6 at 6",
            "[4294967296, 4294967296]",
        ),
        returns("[1,4,3,0,13,0,0]", "refused 6 at 4", ""),
        returns("[1,4,3,0,1,1,0,0,0]", "refused 6 at 6", ""),
        returns("[2,6,1,0,0,13]", "refused 6 at 5", "empty"),
        returns("[2,1,0,0,13,2,0,0,0,0,0,0]", "refused 6 at 4", "{0}"),
        stops_with("[2,1,0,0,13,7,1,0,0]", "refused 6 at 4", &cannot_normalize("a")),
        stops_with(
            "[1,5,0,0,5,0,1,1,0,1,1,1,2]",
            "refused 6 at 12",
            "Cannot widen non-range supports",
        ),
    ]
}

/// Inputs that no text gives: a caller's own ranges (each a start and an end) and unroll.
pub fn of_callers() -> Vec<Difference> {
    let zeros = |count| vec![(0, 0); count];
    let one = &zeros(1);
    let many_statements = &many_statements();
    let unassigned = "assertion failed: v.id() < result.num_vars()";
    vec![
        returns("[1,3,0,0]", "refused 7 at 0", "{5, ..., 3}").from(&[(5, 3)], 0),
        returns("[1,6]", "refused 7 at 1", "empty").from(&[(5, 3)], 0).after_empty(),
        returns("[1,1,1,0,2]", "refused 5 at 2", "{0}, {0, ..., 1}").from(one, 0),
        stops_with("[1,1,1,0,2]", "refused 5 at 2", unassigned).from(&[], 0),
        stops_with("[1,3,0,0]", "refused 5 at 2", NO_SUCH_VARIABLE).from(&[], 0),
        returns("[2,6,3,0,0]", "refused 5 at 3", "empty").from(&[], 0),
        returns("[2,6,1,1,0,2]", "refused 5 at 3", "empty").from(one, 0),
        stops_with("[2,6,1,1,0,2]", "refused 5 at 3", unassigned).from(&[], 0),
        stops_with("[1,4,1,0,0,0,0]", "refused 5 at 3", NO_SUCH_VARIABLE).from(&[], 0),
        returns("[1,4,3,0,3,0,0,0]", "refused 5 at 5", "").from(&[], 0),
        returns("[1,4,2,0,0,0,0]", "refused 5 at 3", "").from(&[], 0),
        returns("[1,1,0,0,3,1]", "refused 5 at 5", "{0, ..., 1}").from(one, 0),
        returns("[1,5,0,0,5,0,0]", "refused 4 at 0", "empty").from(&[], 10_001),
        returns("[1,6]", "refused 4 at 0", "empty").from(&zeros(65), 0),
        returns(many_statements, "refused 4 at 0", "empty").from(&[], 0),
    ]
}

/// 8,193 words.
fn many_statements() -> String {
    format!("[8192,{}]", vec!["6"; 8_192].join(","))
}

fn returned(line: &str) -> Genfer {
    Genfer::Returned(line.to_string())
}

fn stopped(message: &str) -> Genfer {
    Genfer::Stopped(message.to_string())
}

fn returns(text: &str, line: &'static str, genfer: &str) -> Difference {
    Difference {
        text: text.to_string(),
        start: None,
        line,
        genfer: returned(genfer),
    }
}

fn stops_with(text: &str, line: &'static str, genfer: &str) -> Difference {
    Difference {
        text: text.to_string(),
        start: None,
        line,
        genfer: stopped(genfer),
    }
}

impl Difference {
    fn from(self, ranges: &[(u64, u64)], unroll: u64) -> Difference {
        let range = |(start, end): &(u64, u64)| Some(Range::between(*start, *end));
        let ranges = ranges.iter().map(range).collect();
        Difference {
            start: Some(Start { ranges, unroll }),
            ..self
        }
    }

    /// With an Empty range before the others.
    fn after_empty(mut self) -> Difference {
        if let Some(start) = &mut self.start {
            start.ranges.insert(0, None);
        }
        self
    }

    /// What is expected beside what is said, by the model and by genfer.
    pub fn answers(&self) -> Vec<(String, String)> {
        let text = self.text.as_bytes();
        let words = text::words(text, &Limits::lifted()).expect("a list of words");
        let limits = Limits::of_document();
        let model = match &self.start {
            None => model::of_text(text, &limits, STEPS),
            Some(start) => model::from_start(words.clone(), start, &limits, STEPS),
        };
        let mut answers = vec![(self.line.to_string(), model.outcome.to_string())];
        if genfer_side::PRESENT {
            let said = match &self.start {
                None => genfer_side::answer(&words),
                Some(start) => genfer_side::answer_from(&words, start),
            };
            answers.push((format!("{:?}", self.genfer), format!("{:?}", said)));
        }
        answers
    }
}
