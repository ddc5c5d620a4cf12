//! What the programs compared had in them.

use crate::model::ranges::{State, TOP};
use crate::model::tree::{Draw, Event, Kind, Statement, Test};
use crate::model::{Accepted, Answer, Outcome};
use std::collections::BTreeSet;
use std::fmt::{Display, Formatter};

#[derive(Default)]
pub struct Coverage {
    statements: [u64; 8],
    events: [u64; 6],
    draws: [u64; 13],
    refusals: [u64; 11],
    empty: u64,
    live: u64,
    /// Programs by how many loops stand in one another.
    nests: [u64; 4],
    found: u64,
    joined: u64,
    widened: u64,
    variables: BTreeSet<usize>,
    near_zero: u64,
    near_top: u64,
    dead_lists: u64,
}

impl Coverage {
    pub fn add(&mut self, answer: &Answer) {
        match &answer.outcome {
            Outcome::Refused(refusal) => self.refusals[usize::from(refusal.number)] += 1,
            Outcome::State(state) => self.add_state(state),
            Outcome::TooLong => {}
        }
        if let Some(accepted) = &answer.accepted {
            self.add_program(accepted);
        }
    }

    fn add_state(&mut self, state: &State) {
        let ranges = match state {
            State::Empty => {
                self.empty += 1;
                return;
            }
            State::Live(ranges) => ranges,
        };
        self.live += 1;
        let near_top = |value: u64| value > TOP - 8;
        let ends = |range: &crate::model::ranges::Range| range.end.map_or(false, near_top);
        self.near_top += u64::from(
            ranges
                .iter()
                .any(|range| near_top(range.start) || ends(range)),
        );
        self.near_zero += u64::from(ranges.iter().any(|range| range.start < 8));
    }

    fn add_program(&mut self, accepted: &Accepted) {
        self.variables.insert(accepted.program.used);
        self.dead_lists += accepted.dead_lists().len() as u64;
        let nest = self.add_statements(&accepted.program.statements);
        self.nests[nest.min(3)] += 1;
        for looped in &accepted.loops {
            let passes = &looped.passes;
            self.found += u64::from(passes.search < 100);
            self.joined += u64::from(passes.joining > 1);
            self.widened += u64::from(passes.widening > 0);
        }
    }

    /// Answers how many loops stand in one another.
    fn add_statements(&mut self, statements: &[Statement]) -> usize {
        let mut deepest = 0;
        for statement in statements {
            let mut nest = 0;
            for list in statement.lists() {
                nest = nest.max(self.add_statements(&list.statements));
            }
            nest += usize::from(matches!(statement.kind, Kind::While(_)));
            deepest = deepest.max(nest);
            self.add_statement(&statement.kind);
        }
        deepest
    }

    fn add_statement(&mut self, kind: &Kind) {
        let number = match kind {
            Kind::Draw { draw, .. } => {
                self.add_draw(draw);
                1
            }
            Kind::Assign { .. } => 2,
            Kind::Decrement { .. } => 3,
            Kind::If { event, .. } => {
                self.add_event(event);
                4
            }
            Kind::While(looped) => {
                self.add_event(&looped.event);
                5
            }
            Kind::Fail => 6,
            Kind::Normalize { .. } => 7,
        };
        self.statements[number] += 1;
    }

    fn add_event(&mut self, event: &Event) {
        let number = match &event.test {
            Test::InSet { .. } => 1,
            Test::Compare => 2,
            Test::Data(draw) => {
                self.add_draw(draw);
                3
            }
            Test::Not(event) => {
                self.add_event(event);
                4
            }
            Test::All(events) => {
                events.iter().for_each(|event| self.add_event(event));
                5
            }
        };
        self.events[number] += 1;
    }

    fn add_draw(&mut self, draw: &Draw) {
        self.draws[draw.kind as usize] += 1;
    }

    /// What is still missing of what the recorded list is to hold. No text is refused with 7.
    pub fn missing(&self) -> Vec<String> {
        let numbered = [
            ("statement", &self.statements[1..]),
            ("event", &self.events[1..]),
            ("draw", &self.draws[1..]),
            ("refusal", &self.refusals[1..]),
        ];
        let mut missing = Vec::new();
        for (name, counts) in numbered {
            for (index, count) in counts.iter().enumerate() {
                if *count == 0 && (name, index + 1) != ("refusal", 7) {
                    missing.push(format!("{} {}", name, index + 1));
                }
            }
        }
        missing.extend(
            (0..=64)
                .filter(|n| !self.variables.contains(n))
                .map(|n| format!("n = {}", n)),
        );
        let kinds = [
            ("an empty state", self.empty),
            ("a nest of three loops", self.nests[3]),
            ("a loop that finds", self.found),
            ("a loop that joins", self.joined),
            ("a loop that widens", self.widened),
            ("values near 0", self.near_zero),
            ("values near 2^32 - 1", self.near_top),
        ];
        missing.extend(
            kinds
                .iter()
                .filter(|kind| kind.1 == 0)
                .map(|kind| kind.0.to_string()),
        );
        missing
    }
}

impl Display for Coverage {
    fn fmt(&self, f: &mut Formatter<'_>) -> std::fmt::Result {
        writeln!(f, "statements 1 to 7: {:?}", &self.statements[1..])?;
        writeln!(f, "events 1 to 5: {:?}", &self.events[1..])?;
        writeln!(f, "draws 1 to 12: {:?}", &self.draws[1..])?;
        writeln!(f, "refusals 1 to 10: {:?}", &self.refusals[1..])?;
        writeln!(
            f,
            "states: {} live ({} with a value near 0, {} near 2^32 - 1), {} empty",
            self.live, self.near_zero, self.near_top, self.empty
        )?;
        writeln!(
            f,
            "loops: {} found, {} joined, {} widened; programs by nested loops: {:?}",
            self.found, self.joined, self.widened, self.nests
        )?;
        write!(
            f,
            "numbers of variables: {}; lists that no pass entered: {}",
            self.variables.len(),
            self.dead_lists
        )
    }
}
