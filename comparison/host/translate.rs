//! From words to genfer's own tree. It reads the words by itself, apart from the model's reader,
//! and takes only words that the model's reader accepts (with limits lifted, too).

use genfer::number::TRAIL;
use genfer::ppl::{Comparison, Distribution, Event, Natural, PosRatio, Program, Statement, Var};

/// A longer categorical draw becomes the uniform one with the same range: its weights, sixteen bytes
/// each and never read, would fill the memory.
const LONGEST_CATEGORICAL: u64 = 4_096;

pub fn program(words: &[u64]) -> Program {
    Translator::new(words, None).program()
}

/// The same program, which also leaves a trail (see `genfer::number::TRAIL`) of the places gone by
/// with a state that is not empty: each statement, each then-list, else-list and loop body, and a
/// loop's statement again at the end of its body. It has one variable more, [0,0] between statements.
pub fn program_with_trail(words: &[u64]) -> Program {
    let unused = Var(program(words).used_vars().num_vars());
    Translator::new(words, Some(unused)).program()
}

struct Translator<'a> {
    words: &'a [u64],
    next: usize,
    trail: Option<Var>,
}

impl Translator<'_> {
    fn new(words: &[u64], trail: Option<Var>) -> Translator<'_> {
        Translator {
            words,
            next: 0,
            trail,
        }
    }

    fn program(mut self) -> Program {
        let statements = self.statements();
        assert_eq!(self.next, self.words.len());
        // The result is read by no part of the range analysis.
        Program::new(statements, Var(0))
    }

    fn word(&mut self) -> u64 {
        self.next += 1;
        self.words[self.next - 1]
    }

    fn natural(&mut self) -> Natural {
        let word = self.word();
        Natural(u32::try_from(word).expect("a value fits u32"))
    }

    fn variable(&mut self) -> Var {
        Var(self.word() as usize)
    }

    fn flag(&mut self) -> bool {
        self.word() == 1
    }

    /// A ratio that the analysis never reads: any will do, denominator 0 too.
    fn unread(&self) -> PosRatio {
        PosRatio::new(self.next as u64 % 7, self.next as u64 % 5)
    }

    fn statements(&mut self) -> Vec<Statement> {
        let count = self.word();
        let mut statements = Vec::new();
        for _ in 0..count {
            self.leave_trail(self.next, &mut statements);
            let statement = self.statement();
            statements.push(statement);
        }
        statements
    }

    fn entered(&mut self) -> Vec<Statement> {
        let mut statements = Vec::new();
        self.leave_trail(self.next, &mut statements);
        statements.extend(self.statements());
        statements
    }

    /// The draw makes a ratio of the place; the assignment sets the variable back.
    fn leave_trail(&self, place: usize, statements: &mut Vec<Statement>) {
        if let Some(var) = self.trail {
            let place = place as u64;
            statements.push(Statement::Sample {
                var,
                distribution: Distribution::UniformCont {
                    start: PosRatio::new(place, TRAIL),
                    end: PosRatio::new(place + 1, 1),
                },
                add_previous_value: false,
            });
            statements.push(Statement::Assign {
                var,
                add_previous_value: false,
                addend: None,
                offset: Natural(0),
            });
        }
    }

    fn statement(&mut self) -> Statement {
        let place = self.next;
        match self.word() {
            1 => self.sample(),
            2 => self.assign(),
            3 => Statement::Decrement {
                var: self.variable(),
                offset: self.natural(),
            },
            4 => Statement::IfThenElse {
                cond: self.event(),
                then: self.entered(),
                els: self.entered(),
            },
            5 => self.looped(place),
            6 => Statement::Fail,
            7 => self.normalize(),
            kind => panic!("{} is no statement", kind),
        }
    }

    fn sample(&mut self) -> Statement {
        let var = self.variable();
        let add_previous_value = self.flag();
        Statement::Sample {
            var,
            distribution: self.distribution(),
            add_previous_value,
        }
    }

    fn assign(&mut self) -> Statement {
        let var = self.variable();
        let add_previous_value = self.flag();
        let has = self.flag();
        let addend = (self.natural(), self.variable());
        Statement::Assign {
            var,
            add_previous_value,
            addend: Some(addend).filter(|_| has),
            offset: self.natural(),
        }
    }

    fn looped(&mut self, place: usize) -> Statement {
        let has = self.flag();
        let unroll = self.word() as usize;
        let cond = self.event();
        let mut body = self.entered();
        self.leave_trail(place, &mut body);
        Statement::While {
            cond,
            unroll: Some(unroll).filter(|_| has),
            body,
        }
    }

    fn normalize(&mut self) -> Statement {
        let count = self.word();
        Statement::Normalize {
            given_vars: (0..count).map(|_| self.variable()).collect(),
            stmts: self.statements(),
        }
    }

    fn event(&mut self) -> Event {
        match self.word() {
            1 => {
                let var = self.variable();
                let count = self.word();
                Event::InSet(var, (0..count).map(|_| self.natural()).collect())
            }
            2 => Event::VarComparison(self.variable(), self.unread_comparison(), self.variable()),
            3 => Event::DataFromDist(self.natural(), self.distribution()),
            4 => Event::Complement(Box::new(self.event())),
            5 => {
                let count = self.word();
                Event::Intersection((0..count).map(|_| self.event()).collect())
            }
            kind => panic!("{} is no event", kind),
        }
    }

    fn unread_comparison(&self) -> Comparison {
        match self.next % 3 {
            0 => Comparison::Eq,
            1 => Comparison::Lt,
            _ => Comparison::Le,
        }
    }

    fn distribution(&mut self) -> Distribution {
        use Distribution::*;
        match self.word() {
            1 => Dirac(PosRatio::new(self.word(), self.word())),
            2 => Bernoulli(self.unread()),
            3 => BernoulliVarProb(self.variable()),
            4 => BinomialVarTrials(self.variable(), self.unread()),
            5 => Binomial(self.natural(), self.unread()),
            6 => self.categorical(),
            7 => NegBinomialVarSuccesses(self.variable(), self.unread()),
            8 => NegBinomial(self.natural(), self.unread()),
            9 => Geometric(self.unread()),
            10 => Poisson(self.unread()),
            11 => PoissonVarRate(self.unread(), self.variable()),
            12 => Uniform {
                start: self.natural(),
                end: self.natural(),
            },
            kind => continuous(kind),
        }
    }

    fn categorical(&mut self) -> Distribution {
        let length = self.natural();
        if u64::from(length.0) <= LONGEST_CATEGORICAL {
            return Distribution::Categorical(vec![self.unread(); length.0 as usize]);
        }
        Distribution::Uniform {
            start: Natural(0),
            end: length,
        }
    }
}

/// The draws that Woolquern refuses, with parameters of our own.
fn continuous(kind: u64) -> Distribution {
    let (zero, one) = (PosRatio::zero(), PosRatio::new(1, 1));
    match kind {
        13 => Distribution::Exponential { rate: one },
        14 => Distribution::Gamma {
            shape: one,
            rate: one,
        },
        15 => Distribution::UniformCont {
            start: zero,
            end: one,
        },
        _ => panic!("{} is no draw", kind),
    }
}
