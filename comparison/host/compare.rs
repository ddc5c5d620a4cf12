//! One program, all answers.

use crate::answers::{cannot_normalize, Genfer, ADDS, MULTIPLIES};
use crate::model::{self, Accepted, Answer, Limits, Outcome, Refusal, Start};
use crate::{entries, genfer_side, library, watch};
use std::cell::Cell;

/// Which limits hold, and how many steps the model may spend on a program.
pub struct Judge {
    pub limits: Limits,
    pub steps: u64,
    /// Woolquern has document 01's limits and takes no part where they are lifted.
    pub with_library: bool,
    /// How often Woolquern's marks were compared, refusals left out, and how often a loop's own entry.
    pub marks: Cell<u64>,
    pub loops: Cell<u64>,
    pub widened: Cell<u64>,
}

/// How much Woolquern is asked about a text beside its line.
#[derive(Clone, Copy, PartialEq, Eq)]
pub enum Asked {
    /// Marks and the loop's own entry, with many unrolls, and with buffers that are too short.
    Thoroughly,
    /// The marks of a program, and the loop's own entry where it is one loop.
    Briefly,
}

pub enum Verdict {
    Agree(Answer),
    /// Only the model was asked: genfer has no such program, and the library is not here.
    Alone(Answer),
    /// The program takes more steps than are allowed to one: nobody else is asked.
    TooLong,
    /// All answers, and which of them differ.
    Differ(String),
}

impl Judge {
    pub fn of_document(steps: u64) -> Judge {
        Judge {
            limits: Limits::of_document(),
            steps,
            with_library: library::PRESENT,
            marks: Cell::new(0),
            loops: Cell::new(0),
            widened: Cell::new(0),
        }
    }

    pub fn lifted(steps: u64) -> Judge {
        Judge {
            limits: Limits::lifted(),
            steps,
            with_library: false,
            marks: Cell::new(0),
            loops: Cell::new(0),
            widened: Cell::new(0),
        }
    }

    pub fn judge(&self, text: &[u8], asked: Asked) -> Verdict {
        watch::over(text, || self.verdict(text, asked))
    }

    fn verdict(&self, text: &[u8], asked: Asked) -> Verdict {
        let answer = model::of_text(text, &self.limits, self.steps);
        if answer.outcome == Outcome::TooLong {
            return Verdict::TooLong;
        }
        let judged = self
            .library_agrees(text, &answer, asked)
            .and_then(|()| genfer_agrees(&answer));
        let alone = !self.with_library && asks_genfer(&answer).is_none();
        match judged {
            Ok(()) if alone => Verdict::Alone(answer),
            Ok(()) => Verdict::Agree(answer),
            Err(difference) => Verdict::Differ(self.all_answers(text, &answer, &difference)),
        }
    }

    /// Genfer against the model from the caller's ranges; the library takes a text only.
    pub fn judge_from(&self, words: &[u64], start: &Start) -> Verdict {
        let answer = model::from_start(words.to_vec(), start, &self.limits, self.steps);
        if answer.outcome == Outcome::TooLong {
            return Verdict::TooLong;
        }
        let judged = match asks_genfer(&answer) {
            None => return Verdict::Alone(answer),
            Some(accepted) => {
                let said = genfer_side::answer_from(words, start);
                same("genfer's answer", said, expected(&answer, accepted))
            }
        };
        match judged {
            Ok(()) => Verdict::Agree(answer),
            Err(difference) => Verdict::Differ(difference),
        }
    }

    fn library_agrees(&self, text: &[u8], answer: &Answer, asked: Asked) -> Result<(), String> {
        if !self.with_library {
            return Ok(());
        }
        let line = library::line(text).map_err(|wrong| format!("Woolquern {}", wrong))?;
        same("Woolquern's line", line, answer.outcome.to_string())?;
        if asked == Asked::Briefly && answer.accepted.is_none() {
            return Ok(());
        }
        entries::marks_agree(text, answer, asked)?;
        if let Outcome::State(_) = answer.outcome {
            add(&self.marks, true);
        }
        self.loops_agree(text, answer, asked)
    }

    /// The loop's own entry, with default unrolls up to one over the limit.
    fn loops_agree(&self, text: &[u8], answer: &Answer, asked: Asked) -> Result<(), String> {
        let accepted = answer.accepted.as_ref();
        let one_loop = accepted.map_or(false, |accepted| accepted.words.starts_with(&[1, 5]));
        let unrolls: &[u64] = match (one_loop, asked) {
            (true, Asked::Thoroughly) => &[0, 1, 7, 10_000, 10_001],
            (true, Asked::Briefly) => &[0, 7],
            (false, Asked::Thoroughly) => &[0, 10_001],
            (false, Asked::Briefly) => &[],
        };
        for unroll in unrolls {
            let answer = model::of_loop(text, *unroll, &self.limits, self.steps);
            if answer.outcome != Outcome::TooLong {
                entries::loop_agrees(text, *unroll, &answer, asked)?;
                genfer_loop_agrees(&answer, *unroll)?;
                self.count_loop(&answer);
            }
        }
        Ok(())
    }

    fn count_loop(&self, answer: &Answer) {
        let last = answer.accepted.as_ref().and_then(|it| it.loops.last());
        if let (Outcome::State(_), Some(last)) = (&answer.outcome, last) {
            add(&self.loops, true);
            add(&self.widened, last.passes.widening > 0);
        }
    }

    fn all_answers(&self, text: &[u8], answer: &Answer, difference: &str) -> String {
        let mut report = format!("differs: {}\n  model: {}\n", difference, answer.outcome);
        if let Some(accepted) = asks_genfer(answer) {
            let said = genfer_side::answer(&accepted.words);
            report += &format!("  genfer: {:?}\n", said);
        }
        if self.with_library {
            report += &format!("  Woolquern: {:?}\n", library::line(text));
        }
        report
    }
}

/// Genfer is asked about programs within the limits. It would go over every value where document 01
/// refuses to (10).
fn asks_genfer(answer: &Answer) -> Option<&Accepted> {
    let enumerates = matches!(answer.outcome, Outcome::Refused(Refusal { number: 10, .. }));
    let asked = genfer_side::PRESENT && !enumerates;
    answer.accepted.as_ref().filter(|_| asked)
}

fn genfer_agrees(answer: &Answer) -> Result<(), String> {
    let accepted = match asks_genfer(answer) {
        None => return Ok(()),
        Some(accepted) => accepted,
    };
    let said = genfer_side::answer(&accepted.words);
    same("genfer's answer", said, expected(answer, accepted))?;
    let trail = genfer_side::trail(&accepted.words);
    trail_agrees(&trail, &accepted.trail)?;
    place_agrees(&answer.outcome, accepted, &trail)?;
    last_loop_agrees(accepted, 0)
}

/// Genfer on a program of one loop, with that default unroll.
fn genfer_loop_agrees(answer: &Answer, unroll: u64) -> Result<(), String> {
    let accepted = match asks_genfer(answer) {
        None => return Ok(()),
        Some(accepted) => accepted,
    };
    let start = Start {
        unroll,
        ..Start::zero(accepted.program.used)
    };
    let said = genfer_side::answer_from(&accepted.words, &start);
    let what = format!("genfer's answer with unroll {}", unroll);
    same(&what, said, expected(answer, accepted))?;
    last_loop_agrees(accepted, unroll)
}

fn add(count: &Cell<u64>, one: bool) {
    count.set(count.get() + u64::from(one));
}

/// Genfer overflows in the statement that it came to last.
fn place_agrees(outcome: &Outcome, accepted: &Accepted, trail: &[u64]) -> Result<(), String> {
    match outcome {
        Outcome::Refused(Refusal { number: 8, place }) => {
            let last = trail.last().map(|place| *place as usize);
            let expected = accepted.program.statement_at(*place);
            same("genfer's last statement", last, expected)
        }
        _ => Ok(()),
    }
}

/// What genfer is to say, by the model.
fn expected(answer: &Answer, accepted: &Accepted) -> Genfer {
    match &answer.outcome {
        Outcome::Refused(refusal) => Genfer::Stopped(panic_message(refusal, &accepted.words)),
        outcome => Genfer::Returned(outcome.to_string()),
    }
}

fn panic_message(refusal: &Refusal, words: &[u64]) -> String {
    let word = words[refusal.place];
    match (refusal.number, word) {
        (8, 2) => MULTIPLIES.to_string(),
        (8, 1) => ADDS.to_string(),
        (9, variable) => cannot_normalize(&genfer_side::variable_name(variable)),
        (number, _) => format!("nothing: {} cannot stand at the word {}", number, word),
    }
}

/// Both came by the same places in the same order.
fn trail_agrees(genfer: &[u64], model: &[u64]) -> Result<(), String> {
    let common = genfer.iter().zip(model).take_while(|(a, b)| a == b).count();
    let next = |trail: &[u64]| trail.get(common).copied();
    let what = format!("after {} places genfer's next", common);
    same(&what, next(genfer), next(model))
}

fn last_loop_agrees(accepted: &Accepted, unroll: u64) -> Result<(), String> {
    let (genfer, model) = match (
        genfer_side::last_loop(&accepted.words, unroll),
        accepted.loops.last(),
    ) {
        (Some(genfer), Some(model)) => (genfer, model),
        _ => return Ok(()),
    };
    same(
        "genfer's settled state",
        genfer.settled,
        model.settled.to_string(),
    )?;
    let search = genfer.index.map_or(100, |index| index + 1);
    same("genfer's search", search, model.passes.search)
}

fn same<T: PartialEq + std::fmt::Debug>(what: &str, other: T, model: T) -> Result<(), String> {
    if other == model {
        return Ok(());
    }
    Err(format!("{} is {:?}, the model's {:?}", what, other, model))
}
