//! Random programs, as words. Most are within document 01's limits; some are just beyond one.

use crate::model::ranges::{Range, TOP};
use crate::model::tree::Kind;
use crate::model::{reader, Limits, Start};
use crate::random::Random;

/// How far a program may go.
#[derive(Clone, Copy)]
pub struct Reach {
    pub variables: u64,
    pub depth: u64,
    pub loops: u64,
    pub values: u64,
    pub given: u64,
    pub unroll: u64,
    pub enumerated: u64,
}

impl Reach {
    pub const OF_DOCUMENT: Reach = Reach {
        variables: 64,
        depth: 16,
        loops: 3,
        values: 256,
        given: 8,
        unroll: 10_000,
        enumerated: 4_096,
    };

    /// Beyond every limit that document 01 sets.
    pub const BEYOND: Reach = Reach {
        variables: 90,
        depth: 22,
        loops: 5,
        values: 300,
        given: 11,
        unroll: 12_000,
        enumerated: 6_000,
    };
}

#[derive(Clone, Copy)]
struct Nesting {
    depth: u64,
    loops: u64,
}

const OUTERMOST: Nesting = Nesting { depth: 1, loops: 0 };

impl Nesting {
    fn deeper(self) -> Nesting {
        Nesting {
            depth: self.depth + 1,
            ..self
        }
    }

    fn in_loop(self) -> Nesting {
        Nesting {
            loops: self.loops + 1,
            ..self.deeper()
        }
    }
}

pub fn program(random: &mut Random, reach: Reach) -> Vec<u64> {
    let variables = some_variables(random, reach);
    program_of(random, reach, variables)
}

/// A program that names no variable beyond so many.
pub fn program_of(random: &mut Random, reach: Reach, variables: u64) -> Vec<u64> {
    let long = random.pick(&[20, 40, 60, 100, 200]);
    let mut writer = Writer {
        random,
        reach,
        words: Vec::new(),
        variables,
        focus: 0,
        long,
    };
    writer.block(Writer::top_list);
    writer.words
}

/// A program of at least so many words: many random ones after one another.
pub fn long_program(random: &mut Random, words: usize) -> Vec<u64> {
    let variables = random.pick(&[2, 8, 64]);
    let mut long = vec![0];
    while long.len() < words {
        let program = program_of(random, Reach::OF_DOCUMENT, variables);
        long[0] += program[0];
        long.extend_from_slice(&program[1..]);
    }
    long
}

/// The program of the first loop of the top list alone.
pub fn first_loop(words: &[u64]) -> Option<Vec<u64>> {
    let limits = Limits::of_document();
    let program = reader::program(words, limits.variables, &limits).ok()?;
    let mut statements = program.statements.iter();
    let looped = statements.find(|statement| matches!(statement.kind, Kind::While(_)))?;
    let mut alone = vec![1];
    alone.extend_from_slice(&words[looped.place..looped.end]);
    Some(alone)
}

/// Ranges to start from, and an unroll for loops that have none.
pub fn start(random: &mut Random, variables: usize) -> Start {
    let mut ranges = Vec::new();
    for _ in 0..variables {
        let (low, high) = (value(random), value(random));
        ranges.push(match random.weighted(&[1, 20, 20, 20]) {
            0 if random.one_in(4) => None,
            0 | 1 => Some(Range::point(low)),
            2 => Some(Range::between(low.min(high), low.max(high))),
            _ => Some(Range::from(low)),
        });
    }
    Start {
        ranges,
        unroll: random.pick(&[0, 1, 2, 5, 99, 100, 101, 150]),
    }
}

/// Mostly a small number, often one near 2^32 - 1 or a power of two.
fn value(random: &mut Random) -> u64 {
    match random.weighted(&[45, 25, 8, 14, 8]) {
        0 => random.below(4),
        1 => random.below(13),
        2 => random.below(300),
        3 => TOP - random.below(4),
        _ => (1 << random.below(32)) - random.below(2),
    }
}

fn some_variables(random: &mut Random, reach: Reach) -> u64 {
    match random.weighted(&[3, 18, 30, 20, 18, 7, 4]) {
        few @ 0..=3 => few as u64,
        4 => random.between(4, 8),
        5 => random.between(9, reach.variables),
        _ => reach.variables,
    }
}

/// Writes one program. A function that may write several statements answers how many it wrote.
struct Writer<'a> {
    random: &'a mut Random,
    reach: Reach,
    words: Vec<u64>,
    variables: u64,
    /// The variable that conditions and bodies share.
    focus: u64,
    /// Beyond so many words nothing more is nested.
    long: usize,
}

impl Writer<'_> {
    fn push(&mut self, words: &[u64]) {
        self.words.extend_from_slice(words);
    }

    /// A count and what it counts.
    fn block(&mut self, fill: impl FnOnce(&mut Self) -> u64) {
        let place = self.words.len();
        self.words.push(0);
        self.words[place] = fill(self);
    }

    fn top_list(&mut self) -> u64 {
        if self.variables == 0 {
            return self.statements(4, OUTERMOST);
        }
        let mut count = self.starting_state();
        count += match self.random.weighted(&[60, 25, 6, 5, 4]) {
            0 => self.statements(6, OUTERMOST),
            1 => self.looped(OUTERMOST),
            2 => self.nest(OUTERMOST),
            3 => self.chain(),
            _ => self.large_enumeration(),
        };
        count
    }

    /// Leading statements that give some variables a range.
    fn starting_state(&mut self) -> u64 {
        let mut count = 0;
        if self.random.one_in(2) {
            self.push(&[3, self.variables - 1, 0]);
            count += 1;
        }
        for _ in 0..self.random.below(self.variables.min(4) + 1) {
            let variable = self.variable();
            count += self.range_of(variable);
        }
        count
    }

    /// Sets a variable to some range, whatever it was.
    fn range_of(&mut self, variable: u64) -> u64 {
        let (low, high) = (self.value(), self.value());
        match self.random.below(6) {
            0 | 1 => self.push(&[2, variable, 0, 0, 0, 0, low]),
            2 => self.push(&[
                1,
                variable,
                0,
                12,
                low.min(high),
                TOP.min(low.max(high) + 1),
            ]),
            3 => self.push(&[1, variable, 0, 5, high]),
            4 => self.push(&[1, variable, 0, 9]),
            _ => {
                self.push(&[1, variable, 0, 10]);
                self.push(&[2, variable, 1, 0, 0, 0, low]);
                return 2;
            }
        }
        1
    }

    fn variable(&mut self) -> u64 {
        if self.random.one_in(2) {
            return self.focus;
        }
        self.random.below(self.variables)
    }

    fn value(&mut self) -> u64 {
        value(self.random)
    }

    fn small(&mut self) -> u64 {
        self.random.below(4)
    }

    fn statements(&mut self, most: u64, nesting: Nesting) -> u64 {
        let mut count = 0;
        for _ in 0..self.random.below(most + 1) {
            count += self.statement(nesting);
        }
        count
    }

    fn statement(&mut self, nesting: Nesting) -> u64 {
        let plain = u64::from(self.variables > 0);
        let nests = self.words.len() < self.long && nesting.depth < self.reach.depth;
        let nested = u64::from(nests);
        let looped = u64::from(nests && nesting.loops < self.reach.loops);
        let weights = [
            24 * plain,
            26 * plain,
            12 * plain,
            2,
            16 * nested,
            12 * looped,
            6 * nested,
            2 * plain * nested,
        ];
        match self.random.weighted(&weights) {
            0 => self.draw_statement(),
            1 => self.assign(),
            2 => self.decrement(),
            3 => self.push(&[6]),
            4 => self.branch(nesting),
            5 => return self.looped(nesting),
            6 => return self.normalize(nesting),
            _ => return self.top_test(nesting),
        }
        1
    }

    /// A variable near 2^32 - 1 and a test of the values there, which may remove them all.
    fn top_test(&mut self, nesting: Nesting) -> u64 {
        let (variable, values) = (self.variable(), self.top_values());
        let start = TOP - self.random.below(4);
        self.push(&[1, variable, 0, 1, start, 1]);
        self.push(&[4, 1, variable, values.len() as u64]);
        self.push(&values);
        self.block(|writer| writer.statements(1, nesting.deeper()));
        self.block(|writer| writer.statements(1, nesting.deeper()));
        2
    }

    fn draw_statement(&mut self) {
        let (variable, add) = (self.variable(), self.random.below(2));
        self.push(&[1, variable, add]);
        self.draw();
    }

    fn draw(&mut self) {
        let kind = self.random.between(1, 12);
        let value = self.value();
        self.push(&[kind]);
        match kind {
            1 => {
                let denom = self.random.between(1, 3);
                self.push(&[value * denom, denom]);
            }
            3 | 4 | 7 | 11 => {
                let variable = self.drawn_variable();
                self.push(&[variable]);
            }
            5 | 6 | 8 => self.push(&[value]),
            12 => {
                let other = self.value();
                self.push(&[value, other]);
            }
            _ => {}
        }
    }

    /// A program of no variables has no draw that names one; this gives it its first.
    fn drawn_variable(&mut self) -> u64 {
        if self.variables == 0 {
            0
        } else {
            self.variable()
        }
    }

    fn assign(&mut self) {
        let (variable, add) = (self.variable(), self.random.below(2));
        self.push(&[2, variable, add]);
        if self.random.one_in(2) {
            let factor = match self.random.below(4) {
                0 => self.value(),
                _ => self.small(),
            };
            let other = self.variable();
            self.push(&[1, factor, other]);
        } else {
            self.push(&[0, 0, 0]);
        }
        let offset = self.value();
        self.push(&[offset]);
    }

    fn decrement(&mut self) {
        let (variable, offset) = (self.variable(), self.value());
        self.push(&[3, variable, offset]);
    }

    fn branch(&mut self, nesting: Nesting) {
        self.push(&[4]);
        self.event(nesting);
        self.block(|writer| writer.statements(3, nesting.deeper()));
        self.block(|writer| writer.statements(2, nesting.deeper()));
    }

    fn event(&mut self, nesting: Nesting) {
        let named = u64::from(self.variables > 0);
        let nested = u64::from(nesting.depth < self.reach.depth);
        match self
            .random
            .weighted(&[10 * named, 2 * named, 2, 5 * nested, 4 * nested])
        {
            0 => {
                let variable = self.variable();
                self.in_set(variable);
            }
            1 => {
                let (first, second) = (self.variable(), self.variable());
                self.push(&[2, first, second]);
            }
            2 => {
                let value = self.value();
                self.push(&[3, value]);
                self.draw();
            }
            3 => {
                self.push(&[4]);
                self.event(nesting.deeper());
            }
            _ => {
                let count = self.random.below(4);
                self.push(&[5, count]);
                for _ in 0..count {
                    self.event(nesting.deeper());
                }
            }
        }
    }

    fn in_set(&mut self, variable: u64) {
        self.push(&[1, variable]);
        let values = self.set();
        self.push(&[values.len() as u64]);
        self.push(&values);
    }

    fn set(&mut self) -> Vec<u64> {
        match self.random.weighted(&[30, 25, 25, 4, 10, 5, 1]) {
            0 => vec![self.value()],
            1 => self.run(12),
            2 => (0..self.random.between(2, 6))
                .map(|_| self.value())
                .collect(),
            3 => Vec::new(),
            4 => self.top_values(),
            5 => self.run(130),
            _ => (0..self.reach.values).collect(),
        }
    }

    /// Consecutive values, sometimes turned round and with repeats.
    fn run(&mut self, most: u64) -> Vec<u64> {
        let from = self.small();
        let mut values: Vec<u64> = (from..from + self.random.between(1, most)).collect();
        if self.random.one_in(3) {
            values.reverse();
            values.push(from);
        }
        values
    }

    fn top_values(&mut self) -> Vec<u64> {
        let skipped = self.random.below(8);
        let from = TOP - self.random.below(5);
        (from..=TOP)
            .filter(|value| TOP - value != skipped)
            .collect()
    }

    fn normalize(&mut self, nesting: Nesting) -> u64 {
        let mut count = 1;
        let most = if self.random.one_in(12) {
            self.reach.given
        } else {
            self.variables.min(3)
        };
        let given: Vec<u64> = (0..self.random.below(most + 1))
            .map(|_| self.drawn_variable())
            .collect();
        for variable in &given {
            if self.variables > 0 && !self.random.one_in(4) {
                let low = self.value();
                let high = TOP.min(low + self.random.below(5));
                self.push(&[1, *variable, 0, 12, low, high]);
                count += 1;
            }
        }
        self.push(&[7, given.len() as u64]);
        self.push(&given);
        self.block(|writer| writer.statements(3, nesting.deeper()));
        count
    }

    fn unroll(&mut self, nesting: Nesting) {
        let unroll = match self.random.weighted(&[60, 30, 8, 2]) {
            0 => {
                self.push(&[0, 0]);
                return;
            }
            1 => self.random.below(13),
            2 => self.random.below(150),
            _ if nesting.loops > 0 => self.small(),
            _ => self.random.between(100, self.reach.unroll),
        };
        self.push(&[1, unroll]);
    }

    /// A loop whose condition and body share a variable, and mostly a start for that variable.
    fn looped(&mut self, nesting: Nesting) -> u64 {
        let mut count = 1;
        if self.variables == 0 {
            self.any_loop(nesting);
            return count;
        }
        self.focus = self.random.below(self.variables);
        if self.random.one_in(2) {
            let focus = self.focus;
            count += self.range_of(focus);
        }
        match self.random.weighted(&[25, 25, 15, 10, 30]) {
            0 => self.counting_loop(nesting),
            1 => return count + self.flag_loop(nesting),
            2 => self.countdown_loop(nesting),
            3 => self.growing_loop(nesting),
            _ => self.any_loop(nesting),
        }
        count
    }

    fn any_loop(&mut self, nesting: Nesting) {
        self.push(&[5]);
        self.unroll(nesting);
        self.event(nesting);
        self.block(|writer| writer.statements(3, nesting.in_loop()));
    }

    /// While the variable is one of consecutive numbers it grows.
    fn counting_loop(&mut self, nesting: Nesting) {
        let focus = self.focus;
        self.push(&[5]);
        self.unroll(nesting);
        let most = if self.random.one_in(4) { 130 } else { 12 };
        let values = self.run(most);
        self.push(&[1, focus, values.len() as u64]);
        self.push(&values);
        let step = self.small();
        self.body_with(nesting, &[&[2, focus, 1, 0, 0, 0, step]]);
    }

    /// The flag is put up; while it is up it is drawn anew and mostly another variable changes, so
    /// that the loop joins and widens. Answers how many statements stand before the loop.
    fn flag_loop(&mut self, nesting: Nesting) -> u64 {
        let focus = self.focus;
        let (drawn, change) = ([1, focus, 0, 2], self.change());
        let falls = change[0] == 3 && self.random.one_in(2);
        if falls {
            // High enough that it still falls after 100 joins.
            let high = self.random.between(100, 900);
            self.push(&[2, change[1], 0, 0, 0, 0, high]);
        }
        self.push(&[2, focus, 0, 0, 0, 0, 1, 5]);
        self.unroll(nesting);
        self.push(&[1, focus, 1, 1]);
        match self.random.below(3) {
            0 => self.body_with(nesting, &[&drawn]),
            _ => self.body_with(nesting, &[&drawn, &change]),
        }
        1 + u64::from(falls)
    }

    fn countdown_loop(&mut self, nesting: Nesting) {
        let focus = self.focus;
        self.push(&[5]);
        self.unroll(nesting);
        self.push(&[4]);
        self.in_set(focus);
        let step = self.small();
        self.body_with(nesting, &[&[3, focus, step]]);
    }

    /// The variable is multiplied and added to in each pass.
    fn growing_loop(&mut self, nesting: Nesting) {
        let focus = self.focus;
        self.push(&[5]);
        self.unroll(nesting);
        self.event(nesting);
        let (factor, other, offset) = (self.small(), self.variable(), self.small());
        self.body_with(nesting, &[&[2, focus, 0, 1, factor, other, offset]]);
    }

    /// A small change of any variable.
    fn change(&mut self) -> Vec<u64> {
        let (variable, step) = (self.random.below(self.variables), self.random.between(1, 3));
        match self.random.below(4) {
            0 => vec![3, variable, step],
            1 => vec![1, variable, 1, 12, 0, step + 1],
            _ => vec![2, variable, 1, 0, 0, 0, step],
        }
    }

    /// A body with those statements first or last.
    fn body_with(&mut self, nesting: Nesting, statements: &[&[u64]]) {
        let first = self.random.one_in(2);
        self.block(|writer| {
            if first {
                writer.push(&statements.concat());
            }
            let count = writer.statements(2, nesting.in_loop());
            if !first {
                writer.push(&statements.concat());
            }
            count + statements.len() as u64
        });
    }

    /// Loops in loops, each with few passes.
    fn nest(&mut self, nesting: Nesting) -> u64 {
        let counter = self.random.below(self.variables);
        let values = self.run(2);
        let reset = self.random.below(2);
        self.push(&[2, counter, 0, 0, 0, 0, reset]);
        self.push(&[5, 0, 0, 1, counter, values.len() as u64]);
        self.push(&values);
        self.block(|writer| {
            writer.push(&[2, counter, 1, 0, 0, 0, 1]);
            let inner = nesting.in_loop();
            let count = if inner.loops < writer.reach.loops {
                writer.nest(inner)
            } else {
                writer.statements(3, inner)
            };
            count + 1
        });
        2
    }

    /// Nodes in nodes, down to the greatest depth or one further.
    fn chain(&mut self) -> u64 {
        let deepest = self.reach.depth + self.random.below(4) - 2;
        self.link(OUTERMOST, deepest);
        1
    }

    fn link(&mut self, nesting: Nesting, deepest: u64) {
        let deeper = nesting.deeper();
        if nesting.depth >= deepest {
            self.draw_statement();
            return;
        }
        match self.random.below(4) {
            0 => {
                self.push(&[7, 0, 1]);
                self.link(deeper, deepest);
            }
            1 => {
                self.push(&[4]);
                self.event_chain(nesting.depth, deepest);
                self.push(&[0, 0]);
            }
            2 => {
                self.push(&[4, 2, 0, 0, 0, 1]);
                self.link(deeper, deepest);
            }
            _ => {
                self.push(&[4, 1, 0, 1, 0, 1]);
                self.link(deeper, deepest);
                self.push(&[0]);
            }
        }
    }

    fn event_chain(&mut self, depth: u64, deepest: u64) {
        for _ in depth..deepest {
            if self.random.one_in(2) {
                self.push(&[4]);
            } else {
                self.push(&[5, 1]);
            }
        }
        let focus = self.focus;
        self.in_set(focus);
    }

    /// A normalize over about as many values as may be enumerated.
    fn large_enumeration(&mut self) -> u64 {
        let variable = self.variable();
        let low = self.random.pick(&[0, 1, 3, TOP - 5_000]);
        let values = self.reach.enumerated - 3 + self.random.below(6);
        self.push(&[1, variable, 0, 12, low, low + values]);
        self.push(&[7, 1, variable]);
        self.block(|writer| writer.statements(2, OUTERMOST.deeper()));
        2
    }
}
