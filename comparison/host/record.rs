//! The recorded list: programs with the lines that they are to print.

use crate::answers::Genfer;
use crate::arguments::Arguments;
use crate::cases::CASES;
use crate::compare::{Asked, Judge, Verdict};
use crate::coverage::Coverage;
use crate::damage::{self, text_of};
use crate::differences;
use crate::exhaustive::{all_programs, FEW_WORDS};
use crate::genfer_side;
use crate::model::{reader, Answer, Limits, Outcome};
use crate::programs::{program, program_of, Reach};
use crate::random::Random;
use std::collections::BTreeSet;

/// The longest text of the list, but for the two last, which are refused for their length.
const LONGEST_TEXT: usize = 1_999;

/// Steps of a usual program and of one in `FEW`, so that the list is replayed quickly.
const STEPS: u64 = 4_000;
const MORE_STEPS: u64 = 30_000;
const FEW: u64 = 100;

/// Of the short word lists one in so many is recorded: of the programs, and of the others.
const SHORT_PROGRAMS: u64 = 7;
const SHORT_OTHERS: u64 = 5_000;

struct Record {
    lines: String,
    seen: BTreeSet<Vec<u8>>,
    coverage: Coverage,
}

/// Writes the list to the file: a text, a line feed, its line, a line feed, for each program.
pub fn write(arguments: &Arguments, file: &str) -> Result<u64, String> {
    if !genfer_side::PRESENT {
        return Err("a recorded list needs genfer's sources".to_string());
    }
    let mut record = Record {
        lines: String::new(),
        seen: BTreeSet::new(),
        coverage: Coverage::default(),
    };
    record.by_hand();
    record.short_programs();
    record.random_programs(arguments);
    record.too_long_texts();
    println!(
        "seed {}: {} programs in {} bytes",
        arguments.seed,
        record.seen.len(),
        record.lines.len()
    );
    println!("{}", record.coverage);
    let missing = record.coverage.missing();
    if !missing.is_empty() {
        return Err(format!("missing: {}", missing.join(", ")));
    }
    std::fs::write(file, &record.lines).map_err(|wrong| format!("{}: {}", file, wrong))?;
    Ok(0)
}

impl Record {
    fn by_hand(&mut self) {
        for (text, _) in CASES {
            self.add(text.as_bytes(), MORE_STEPS);
        }
        for difference in differences::of_texts() {
            self.add(difference.text.as_bytes(), MORE_STEPS);
        }
    }

    fn short_programs(&mut self) {
        let (mut programs, mut others) = (0, 0);
        all_programs(&FEW_WORDS, 7, &mut |words| {
            let text = text_of(words);
            let (index, every) = if is_program(words) {
                (&mut programs, SHORT_PROGRAMS)
            } else {
                (&mut others, SHORT_OTHERS)
            };
            *index += 1;
            if *index % every == 0 {
                self.add(&text, STEPS);
            }
        });
    }

    fn random_programs(&mut self, arguments: &Arguments) {
        let mut random = Random::new(arguments.seed);
        for variables in 0..=64 {
            self.add_one_with(&mut random, variables);
        }
        while (self.seen.len() as u64) < arguments.count - 2 {
            let steps = if random.one_in(FEW) {
                MORE_STEPS
            } else {
                STEPS
            };
            let words = program(&mut random, Reach::OF_DOCUMENT);
            let text = match random.weighted(&[80, 12, 5, 3]) {
                0 => text_of(&words),
                1 => text_of(&damage::words(&mut random, &words)),
                2 => damage::spaced_text(&mut random, &words),
                _ => damage::text(&mut random, &text_of(&words)),
            };
            self.add(&text, steps);
        }
    }

    /// A program that has just so many variables.
    fn add_one_with(&mut self, random: &mut Random, variables: u64) {
        loop {
            let words = program_of(random, Reach::OF_DOCUMENT, variables);
            let text = text_of(&words);
            let limits = Limits::of_document();
            let used = reader::program(&words, variables, &limits).map(|program| program.used);
            if used == Ok(variables as usize) && self.add(&text, STEPS) {
                return;
            }
        }
    }

    /// More than 8,192 numbers, and more than 65,536 bytes.
    fn too_long_texts(&mut self) {
        self.add_line(&text_of(&vec![0; 8_193]), STEPS);
        self.add_line(" ".repeat(65_537).as_bytes(), STEPS);
    }

    /// Whether the program was taken into the list. Its text stands on one line whatever reads it.
    fn add(&mut self, text: &[u8], steps: u64) -> bool {
        let plain = |byte: &u8| (b' '..=b'~').contains(byte) || *byte == b'\t';
        text.iter().all(plain) && text.len() <= LONGEST_TEXT && self.add_line(text, steps)
    }

    fn add_line(&mut self, text: &[u8], steps: u64) -> bool {
        if self.seen.contains(text) {
            return false;
        }
        match judge(text, steps) {
            Verdict::Agree(answer) | Verdict::Alone(answer) => {
                self.lines += &format!("{}\n{}\n", String::from_utf8_lossy(text), line(&answer));
                self.coverage.add(&answer);
                self.seen.insert(text.to_vec())
            }
            Verdict::TooLong => false,
            Verdict::Differ(report) => panic!("{}", report),
        }
    }
}

fn is_program(words: &[u64]) -> bool {
    let limits = Limits::of_document();
    reader::program(words, limits.variables, &limits).is_ok()
}

fn judge(text: &[u8], steps: u64) -> Verdict {
    Judge::of_document(steps).judge(text, Asked::Briefly)
}

/// Genfer's own printing where it returns, else the model's line.
fn line(answer: &Answer) -> String {
    if let (Outcome::State(_), Some(accepted)) = (&answer.outcome, &answer.accepted) {
        if let Genfer::Returned(line) = genfer_side::answer(&accepted.words) {
            return line;
        }
    }
    answer.outcome.to_string()
}
