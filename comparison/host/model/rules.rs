//! The analysis by document 01's rules (refusals 8 to 10).

use super::ranges::{Over, Range, State};
use super::tree::{Event, Given, Kind, List, Statement, Test, While};
use super::{Limits, Refusal};

/// Why an analysis gave no state.
#[derive(Debug, PartialEq, Eq)]
pub enum Stop {
    Refused(Refusal),
    /// More steps than the host allows to one program.
    TooLong,
}

type After = Result<State, Stop>;
type Sides = Result<(State, State), Stop>;

/// How many passes a loop made.
#[derive(Clone, Copy, Debug, Default, PartialEq, Eq)]
pub struct Passes {
    pub search: u64,
    pub unrolled: u64,
    pub joining: u64,
    pub widening: u64,
}

impl Passes {
    pub fn counts(&self) -> [u64; 4] {
        [self.search, self.unrolled, self.joining, self.widening]
    }
}

#[derive(Clone, Debug, PartialEq, Eq)]
pub struct LoopAnswer {
    pub passes: Passes,
    pub settled: State,
}

pub struct Analysis<'a> {
    limits: &'a Limits,
    default_unroll: u64,
    steps_left: u64,
    /// The places gone by with a state that is not empty, in the order of work: each statement when
    /// it is come to, each then-list, else-list and loop body when it is entered, and a loop's
    /// statement again at the end of its body.
    pub trail: Vec<u64>,
    /// The loops gone through, in the order in which they were left.
    pub loops: Vec<LoopAnswer>,
}

impl Analysis<'_> {
    pub fn new(limits: &Limits, default_unroll: u64, steps: u64) -> Analysis<'_> {
        Analysis {
            limits,
            default_unroll,
            steps_left: steps,
            trail: Vec::new(),
            loops: Vec::new(),
        }
    }

    pub fn list(&mut self, statements: &[Statement], start: State) -> After {
        statements.iter().try_fold(start, |state, statement| {
            self.step()?;
            self.come_to(statement.place, &state);
            self.statement(statement, state)
        })
    }

    fn step(&mut self) -> Result<(), Stop> {
        self.steps_left = self.steps_left.checked_sub(1).ok_or(Stop::TooLong)?;
        Ok(())
    }

    fn come_to(&mut self, place: usize, state: &State) {
        if state.is_live() {
            self.trail.push(place as u64);
        }
    }

    fn enter(&mut self, list: &List, state: State) -> After {
        self.come_to(list.place, &state);
        self.list(&list.statements, state)
    }

    fn statement(&mut self, statement: &Statement, state: State) -> After {
        match &statement.kind {
            Kind::Draw {
                variable,
                add,
                draw,
            } => Ok(drawn(state, *variable, *add, draw.range)),
            Kind::Assign {
                variable,
                add,
                addend,
                offset,
            } => assigned(state, *variable, *add, *addend, *offset)
                .map_err(|Over| refused(8, statement.place)),
            Kind::Decrement { variable, offset } => {
                let range = state.get(*variable).map(|range| range.less(*offset));
                Ok(state.set(*variable, range))
            }
            Kind::If {
                event,
                then,
                otherwise,
            } => {
                let (yes, no) = sides(event, state)?;
                let yes = self.enter(then, yes)?;
                Ok(yes.join(&self.enter(otherwise, no)?))
            }
            Kind::While(looped) => self.looped(looped, statement.place, state),
            Kind::Fail => Ok(State::Empty),
            Kind::Normalize { given, body } => self.normalize(given, body, state),
        }
    }

    fn normalize(&mut self, given: &[Given], body: &List, state: State) -> After {
        let (first, rest) = match given.split_first() {
            None => return self.list(&body.statements, state),
            Some(parts) => parts,
        };
        let range = state.get(first.variable);
        let (start, end) = range
            .and_then(|range| Some((range.start, range.end?)))
            .ok_or_else(|| refused(9, first.place))?;
        if end - start + 1 > self.limits.enumerated {
            return Err(refused(10, first.place));
        }
        (start..=end).try_fold(State::Empty, |joined, value| {
            self.step()?;
            let fixed = state.clone().set(first.variable, Some(Range::point(value)));
            Ok(joined.join(&self.normalize(rest, body, fixed)?))
        })
    }

    /// The new state and the exit.
    fn pass(&mut self, looped: &While, place: usize, state: State) -> Sides {
        self.step()?;
        let (yes, exit) = sides(&looped.event, state)?;
        let new = self.enter(&looped.body, yes)?;
        self.come_to(place, &new);
        Ok((new, exit))
    }

    fn looped(&mut self, looped: &While, place: usize, start: State) -> After {
        let mut passes = Passes::default();
        let found = self.search(looped, place, start.clone(), &mut passes)?;
        let asked = looped.unroll.unwrap_or(self.default_unroll);
        passes.unrolled = asked.max(found.unwrap_or(0));
        let mut state = start;
        let mut exits = State::Empty;
        for _ in 0..passes.unrolled {
            let (new, exit) = self.pass(looped, place, state)?;
            exits = exits.join(&exit);
            state = new;
        }
        let settled = self.settle(looped, place, state, &mut passes)?;
        let (_, exit) = sides(&looped.event, settled.clone())?;
        self.loops.push(LoopAnswer { passes, settled });
        Ok(exits.join(&exit))
    }

    /// The first index whose new state equals the old.
    fn search(
        &mut self,
        looped: &While,
        place: usize,
        start: State,
        passes: &mut Passes,
    ) -> Result<Option<u64>, Stop> {
        let mut state = start;
        for index in 0..100 {
            passes.search += 1;
            let (new, _) = self.pass(looped, place, state.clone())?;
            if new == state {
                return Ok(Some(index));
            }
            state = new;
        }
        Ok(None)
    }

    /// Joins up to 100 times and then widens, until a pass stays within.
    fn settle(&mut self, looped: &While, place: usize, start: State, passes: &mut Passes) -> After {
        let mut state = start;
        loop {
            let joins = passes.joining < 100;
            let count = if joins {
                &mut passes.joining
            } else {
                &mut passes.widening
            };
            *count += 1;
            let (new, _) = self.pass(looped, place, state.clone())?;
            if new.within(&state) {
                return Ok(state);
            }
            state = if joins {
                state.join(&new)
            } else {
                state.widen(&new)
            };
        }
    }
}

fn refused(number: u8, place: usize) -> Stop {
    Stop::Refused(Refusal::new(number, place))
}

/// The true side and the false side.
fn sides(event: &Event, state: State) -> Sides {
    match &event.test {
        Test::InSet { variable, values } => {
            let range = match state.get(*variable) {
                None => return Ok((State::Empty, State::Empty)),
                Some(range) => range,
            };
            let removed = range.remove(values);
            let removed = removed.map_err(|Over| refused(8, event.place))?;
            let yes = state.clone().set(*variable, range.retain(values));
            Ok((yes, state.set(*variable, removed)))
        }
        Test::Compare | Test::Data(_) => Ok((state.clone(), state)),
        Test::Not(event) => sides(event, state).map(|(yes, no)| (no, yes)),
        Test::All(events) => {
            let start = (state, State::Empty);
            events.iter().try_fold(start, |(yes, no), event| {
                let (yes, new_no) = sides(event, yes)?;
                Ok((yes, no.join(&new_no)))
            })
        }
    }
}

fn drawn(state: State, variable: usize, add: bool, draw: Option<Range>) -> State {
    let old = state.get(variable).map(|old| base(old, add));
    let new = match (old, draw) {
        (Some(old), Some(draw)) => Some(old.plus(draw)),
        (old, _) => old,
    };
    state.set(variable, new)
}

fn assigned(
    state: State,
    variable: usize,
    add: bool,
    addend: Option<(u64, usize)>,
    offset: u64,
) -> Result<State, Over> {
    let old = match state.get(variable) {
        None => return Ok(State::Empty),
        Some(old) => old,
    };
    let mut new = base(old, add);
    if let Some((factor, other)) = addend {
        if let Some(range) = state.get(other) {
            new = new.plus(range.times(factor)?);
        }
    }
    Ok(state.set(variable, Some(new.plus(Range::point(offset)))))
}

/// What a draw or an assignment adds to.
fn base(old: Range, add: bool) -> Range {
    if add {
        old
    } else {
        Range::point(0)
    }
}
