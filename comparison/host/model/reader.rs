//! Reading words into a tree: the first bad word decides (refusals 3 to 6).

use super::ranges::{Range, TOP};
use super::tree::{Draw, Event, Given, Kind, List, Program, Statement, Test, While};
use super::{Limits, Refusal};

type Read<T> = Result<T, Refusal>;

/// How deep a node stands, and in how many loops.
#[derive(Clone, Copy)]
struct Nesting {
    depth: u64,
    loops: u64,
}

impl Nesting {
    fn deeper(self) -> Nesting {
        Nesting {
            depth: self.depth + 1,
            ..self
        }
    }

    fn in_loop(self) -> Nesting {
        Nesting {
            loops: self.loops + 1,
            ..self.deeper()
        }
    }
}

struct Reader<'a> {
    words: &'a [u64],
    next: usize,
    variables: u64,
    limits: &'a Limits,
    used: usize,
}

/// The program that the words are, for that many variables.
pub fn program(words: &[u64], variables: u64, limits: &Limits) -> Read<Program> {
    let mut reader = Reader {
        words,
        next: 0,
        variables,
        limits,
        used: 0,
    };
    let statements = reader.statements(Nesting { depth: 1, loops: 0 })?;
    if reader.next < words.len() {
        return Err(Refusal::new(3, reader.next));
    }
    Ok(Program {
        statements,
        used: reader.used,
    })
}

impl Reader<'_> {
    fn word(&mut self) -> Read<u64> {
        match self.words.get(self.next) {
            None => Err(Refusal::new(3, self.words.len())),
            Some(word) => {
                self.next += 1;
                Ok(*word)
            }
        }
    }

    /// A refusal at the word read last.
    fn refuse(&self, number: u8) -> Refusal {
        Refusal::new(number, self.next - 1)
    }

    fn at_most(&mut self, most: u64, number: u8) -> Read<u64> {
        let word = self.word()?;
        if word > most {
            return Err(self.refuse(number));
        }
        Ok(word)
    }

    fn value(&mut self) -> Read<u64> {
        self.at_most(TOP, 3)
    }

    fn flag(&mut self) -> Read<bool> {
        Ok(self.at_most(1, 3)? == 1)
    }

    fn zero(&mut self) -> Read<()> {
        self.at_most(0, 3).map(drop)
    }

    fn given(&mut self) -> Read<Given> {
        let place = self.next;
        let word = self.word()?;
        if word >= self.variables {
            return Err(self.refuse(5));
        }
        Ok(Given {
            place,
            variable: word as usize,
        })
    }

    /// A variable that counts as used.
    fn variable(&mut self) -> Read<usize> {
        let variable = self.given()?.variable;
        self.used = self.used.max(variable + 1);
        Ok(variable)
    }

    fn statements(&mut self, nesting: Nesting) -> Read<Vec<Statement>> {
        let count = self.word()?;
        self.many(count, |reader| reader.statement(nesting))
    }

    /// The list ends the reading long before a count that is too large does.
    fn many<T>(&mut self, count: u64, item: impl Fn(&mut Self) -> Read<T>) -> Read<Vec<T>> {
        (0..count).map(|_| item(self)).collect()
    }

    fn list(&mut self, nesting: Nesting) -> Read<List> {
        Ok(List {
            place: self.next,
            statements: self.statements(nesting)?,
        })
    }

    fn kind_word(&mut self, nesting: Nesting) -> Read<u64> {
        let word = self.word()?;
        if nesting.depth > self.limits.depth {
            return Err(self.refuse(4));
        }
        Ok(word)
    }

    fn statement(&mut self, nesting: Nesting) -> Read<Statement> {
        let place = self.next;
        let kind = match self.kind_word(nesting)? {
            1 => self.draw_statement()?,
            2 => self.assign()?,
            3 => Kind::Decrement {
                variable: self.variable()?,
                offset: self.value()?,
            },
            4 => Kind::If {
                event: self.event(nesting)?,
                then: self.list(nesting.deeper())?,
                otherwise: self.list(nesting.deeper())?,
            },
            5 => Kind::While(self.looped(nesting)?),
            6 => Kind::Fail,
            7 => self.normalize(nesting)?,
            _ => return Err(self.refuse(3)),
        };
        Ok(Statement {
            place,
            end: self.next,
            kind,
        })
    }

    fn draw_statement(&mut self) -> Read<Kind> {
        Ok(Kind::Draw {
            variable: self.variable()?,
            add: self.flag()?,
            draw: self.draw()?,
        })
    }

    fn assign(&mut self) -> Read<Kind> {
        Ok(Kind::Assign {
            variable: self.variable()?,
            add: self.flag()?,
            addend: self.addend()?,
            offset: self.value()?,
        })
    }

    fn addend(&mut self) -> Read<Option<(u64, usize)>> {
        if self.flag()? {
            return Ok(Some((self.value()?, self.variable()?)));
        }
        self.zero()?;
        self.zero()?;
        Ok(None)
    }

    fn looped(&mut self, nesting: Nesting) -> Read<While> {
        if nesting.loops >= self.limits.loops {
            return Err(self.refuse(4));
        }
        Ok(While {
            unroll: self.unroll()?,
            event: self.event(nesting)?,
            body: self.list(nesting.in_loop())?,
        })
    }

    fn unroll(&mut self) -> Read<Option<u64>> {
        let has = self.flag()?;
        let unroll = self.at_most(self.limits.unroll, 4)?;
        if !has && unroll != 0 {
            return Err(self.refuse(3));
        }
        Ok(Some(unroll).filter(|_| has))
    }

    fn normalize(&mut self, nesting: Nesting) -> Read<Kind> {
        let count = self.at_most(self.limits.given, 4)?;
        Ok(Kind::Normalize {
            given: self.many(count, Reader::given)?,
            body: self.list(nesting.deeper())?,
        })
    }

    fn event(&mut self, nesting: Nesting) -> Read<Event> {
        let place = self.next;
        let test = match self.kind_word(nesting)? {
            1 => self.in_set()?,
            2 => {
                self.variable()?;
                self.variable()?;
                Test::Compare
            }
            3 => {
                self.value()?;
                Test::Data(self.draw()?)
            }
            4 => Test::Not(Box::new(self.event(nesting.deeper())?)),
            5 => {
                let count = self.word()?;
                Test::All(self.many(count, |reader| reader.event(nesting.deeper()))?)
            }
            _ => return Err(self.refuse(3)),
        };
        Ok(Event { place, test })
    }

    fn in_set(&mut self) -> Read<Test> {
        let variable = self.variable()?;
        let count = self.at_most(self.limits.values, 4)?;
        Ok(Test::InSet {
            variable,
            values: self.many(count, Reader::value)?.into_iter().collect(),
        })
    }

    fn draw(&mut self) -> Read<Draw> {
        let kind = self.word()?;
        let range = match kind {
            1 => self.ratio().map(Range::point).map(Some)?,
            2 => Some(Range::between(0, 1)),
            3 => self.variable().map(|_| Some(Range::between(0, 1)))?,
            4 | 7 | 11 => self.variable().map(|_| Some(Range::from(0)))?,
            5 => Some(Range::between(0, self.value()?)),
            6 => below(0, self.value()?),
            8 => self.value().map(|_| Some(Range::from(0)))?,
            9 | 10 => Some(Range::from(0)),
            12 => below(self.value()?, self.value()?),
            13..=15 => return Err(self.refuse(6)),
            _ => return Err(self.refuse(3)),
        };
        Ok(Draw { kind, range })
    }

    fn ratio(&mut self) -> Read<u64> {
        let numer = self.word()?;
        let denom = self.word()?;
        if denom == 0 || numer % denom != 0 || numer / denom > TOP {
            return Err(self.refuse(6));
        }
        Ok(numer / denom)
    }
}

fn below(start: u64, end: u64) -> Option<Range> {
    if start < end {
        Some(Range::between(start, end - 1))
    } else {
        None
    }
}
