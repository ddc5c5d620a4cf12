//! A program as a tree, each node with the place of its word.

use super::ranges::Range;
use std::collections::BTreeSet;

#[derive(Debug)]
pub struct Program {
    pub statements: Vec<Statement>,
    /// One more than the highest variable used; given variables do not count.
    pub used: usize,
}

/// A then-list, an else-list, a loop's or a normalize's body; the place is that of its count.
#[derive(Debug)]
pub struct List {
    pub place: usize,
    pub statements: Vec<Statement>,
}

#[derive(Debug)]
pub struct Statement {
    pub place: usize,
    /// The place after its last word.
    pub end: usize,
    pub kind: Kind,
}

#[derive(Debug)]
pub enum Kind {
    Draw {
        variable: usize,
        add: bool,
        draw: Draw,
    },
    Assign {
        variable: usize,
        add: bool,
        addend: Option<(u64, usize)>,
        offset: u64,
    },
    Decrement {
        variable: usize,
        offset: u64,
    },
    If {
        event: Event,
        then: List,
        otherwise: List,
    },
    While(While),
    Fail,
    Normalize {
        given: Vec<Given>,
        body: List,
    },
}

#[derive(Debug)]
pub struct Draw {
    pub kind: u64,
    /// `None` where the draw has no value.
    pub range: Option<Range>,
}

#[derive(Debug)]
pub struct While {
    pub unroll: Option<u64>,
    pub event: Event,
    pub body: List,
}

#[derive(Debug)]
pub struct Given {
    pub place: usize,
    pub variable: usize,
}

#[derive(Debug)]
pub struct Event {
    pub place: usize,
    pub test: Test,
}

#[derive(Debug)]
pub enum Test {
    InSet {
        variable: usize,
        values: BTreeSet<u64>,
    },
    Compare,
    Data(Draw),
    Not(Box<Event>),
    All(Vec<Event>),
}

impl Statement {
    /// The then-list and the else-list, or the body.
    pub fn lists(&self) -> Vec<&List> {
        match &self.kind {
            Kind::If {
                then, otherwise, ..
            } => vec![then, otherwise],
            Kind::While(looped) => vec![&looped.body],
            Kind::Normalize { body, .. } => vec![body],
            _ => Vec::new(),
        }
    }
}

impl Program {
    /// The place of the innermost statement that holds a word.
    pub fn statement_at(&self, place: usize) -> Option<usize> {
        statement_at(&self.statements, place)
    }

    /// The places of all then-lists, else-lists and loop bodies, rising.
    pub fn entered_lists(&self) -> Vec<usize> {
        let mut places = Vec::new();
        add_entered_lists(&self.statements, &mut places);
        places
    }
}

fn statement_at(statements: &[Statement], place: usize) -> Option<usize> {
    let holds = |statement: &&Statement| (statement.place..statement.end).contains(&place);
    let outer = statements.iter().find(holds)?;
    let mut lists = outer.lists().into_iter();
    let inner = lists.find_map(|list| statement_at(&list.statements, place));
    Some(inner.unwrap_or(outer.place))
}

fn add_entered_lists(statements: &[Statement], places: &mut Vec<usize>) {
    for statement in statements {
        for list in statement.lists() {
            if !matches!(statement.kind, Kind::Normalize { .. }) {
                places.push(list.place);
            }
            add_entered_lists(&list.statements, places);
        }
    }
}
