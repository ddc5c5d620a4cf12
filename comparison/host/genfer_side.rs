//! Running genfer's own analysis, with its panics caught.

use crate::answers::{Genfer, LoopEnd};
use crate::model::ranges::Range;
use crate::model::Start;
use crate::translate;
use genfer::number::take_trail;
use genfer::ppl::{Program, Statement, Var};
use genfer::semantics::support::{SupportTransformer, VarSupport};
use genfer::semantics::Transformer;
use genfer::support::SupportSet;
use std::any::Any;
use std::cell::Cell;
use std::panic::{catch_unwind, set_hook, take_hook, AssertUnwindSafe};

pub const PRESENT: bool = true;

thread_local! {
    static CATCHING: Cell<bool> = Cell::new(false);
}

/// Lets genfer panic without a word on standard error.
pub fn silence_panics() {
    let usual = take_hook();
    set_hook(Box::new(move |info| {
        if !CATCHING.with(Cell::get) {
            usual(info);
        }
    }));
}

fn caught<T>(work: impl FnOnce() -> T) -> Result<T, String> {
    CATCHING.with(|catching| catching.set(true));
    let result = catch_unwind(AssertUnwindSafe(work));
    CATCHING.with(|catching| catching.set(false));
    result.map_err(|panic| message(&*panic))
}

fn message(panic: &(dyn Any + Send)) -> String {
    if let Some(message) = panic.downcast_ref::<String>() {
        return message.clone();
    }
    let message = panic.downcast_ref::<&str>();
    message.unwrap_or(&"a panic without a message").to_string()
}

fn transformer(unroll: u64) -> SupportTransformer {
    SupportTransformer::default().with_unroll(unroll as usize)
}

/// A program in genfer's own form, ready to be run again and again.
pub struct Ready(Program);

pub fn ready(words: &[u64]) -> Ready {
    Ready(translate::program(words))
}

impl Ready {
    /// Genfer's analysis and its own printing.
    pub fn line(&self) -> String {
        transformer(0).semantics(&self.0).to_string()
    }
}

pub fn answer(words: &[u64]) -> Genfer {
    run(&translate::program(words))
}

fn run(program: &Program) -> Genfer {
    said(|| transformer(0).semantics(program).to_string())
}

fn said(work: impl FnOnce() -> String) -> Genfer {
    match caught(work) {
        Ok(line) => Genfer::Returned(line),
        Err(message) => Genfer::Stopped(message),
    }
}

/// From the caller's ranges and with the caller's unroll, as genfer's own functions take them.
pub fn answer_from(words: &[u64], start: &Start) -> Genfer {
    let program = translate::program(words);
    let ranges: Vec<SupportSet> = start.ranges.iter().map(support_set).collect();
    let state = VarSupport::from(ranges);
    said(|| {
        transformer(start.unroll)
            .transform_statements(&program.stmts, state)
            .to_string()
    })
}

fn support_set(range: &Option<Range>) -> SupportSet {
    match range {
        None => SupportSet::Empty,
        Some(range) => SupportSet::Range {
            start: range.start as u32,
            end: range.end.map(|end| end as u32),
        },
    }
}

/// The places that genfer goes by with a state that is not empty, in its own order of work.
pub fn trail(words: &[u64]) -> Vec<u64> {
    let program = translate::program_with_trail(words);
    take_trail();
    run(&program);
    take_trail()
}

/// How the loop that ends the top list is analysed with that default unroll, if there is one and
/// genfer does not panic.
pub fn last_loop(words: &[u64], default_unroll: u64) -> Option<LoopEnd> {
    let transformer = || transformer(default_unroll);
    let mut program = translate::program(words);
    let start = transformer().init(&program);
    match program.stmts.pop()? {
        Statement::While { cond, unroll, body } => caught(|| {
            let before = transformer().transform_statements(&program.stmts, start);
            let found = transformer().find_unroll_fixpoint(&cond, &body, before.clone());
            let index = found.map(|(index, _, _)| index);
            let asked = unroll.unwrap_or(default_unroll as usize);
            let mut state = before;
            for _ in 0..asked.max(index.unwrap_or(0)) {
                let (enter, _) = transformer().transform_event(&cond, state);
                state = transformer().transform_statements(&body, enter);
            }
            let settled = transformer().find_while_invariant(&cond, &body, state);
            LoopEnd {
                index: index.map(|index| index as u64),
                settled: settled.to_string(),
            }
        })
        .ok(),
        _ => None,
    }
}

/// How genfer names a variable in its messages.
pub fn variable_name(variable: u64) -> String {
    Var(variable as usize).to_string()
}
