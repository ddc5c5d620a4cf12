//! The comparison: all programs, in one run.

use crate::arguments::Arguments;
use crate::benchmark;
use crate::cases::{self, CASES, PASSES};
use crate::compare::{Asked, Judge, Verdict};
use crate::coverage::Coverage;
use crate::damage::{self, text_of};
use crate::differences::{self, Difference};
use crate::exhaustive::{all_lists, all_programs, FEWEST_WORDS, FEW_WORDS, MANY_WORDS};
use crate::model;
use crate::programs::{first_loop, long_program, program, start, Reach};
use crate::random::Random;
use crate::shrink;
use crate::{genfer_side, library};

/// Of all texts one in so many is put to Woolquern's other functions whatever it is, with buffers that
/// are too short too.
const ASKED_ALL: u64 = 31;

/// Of the random programs one in so many has its first loop compared by itself too.
const LOOPS_ALONE: u64 = 8;

/// After so many failures the smallest program is no longer looked for.
const MOST_SHRUNK: u64 = 3;

struct Run {
    judge: Judge,
    texts: u64,
    passed: u64,
    failed: u64,
    /// Programs that nobody but the model was asked about.
    alone: u64,
    too_long: u64,
    coverage: Coverage,
}

/// Answers how many programs failed.
pub fn compare(arguments: &Arguments) -> u64 {
    let mut run = Run::new(Judge::of_document(arguments.steps));
    println!("seed {}; {}", arguments.seed, compared());
    run.cases();
    if genfer_side::PRESENT || library::PRESENT {
        run.short_lists(arguments.length);
        run.random_programs(arguments);
        run.long_programs(arguments);
        println!("of the programs compared:\n{}", run.coverage);
    }
    if genfer_side::PRESENT {
        run.from_starts(arguments);
        run.without_limits(arguments);
    }
    if library::PRESENT {
        println!(
            "of Woolquern's other functions: {} marks, {} loops of which {} widened",
            run.judge.marks.get(),
            run.judge.loops.get(),
            run.judge.widened.get()
        );
    }
    println!(
        "not counted: {} that only the model answers here, {} that take too long",
        run.alone, run.too_long
    );
    println!("{} passed, {} failed", run.passed, run.failed);
    run.failed
}

fn compared() -> &'static str {
    match (genfer_side::PRESENT, library::PRESENT) {
        (true, true) => "the model, genfer and Woolquern",
        (true, false) => "the model and genfer, without Woolquern's library",
        (false, true) => "the model and Woolquern, without genfer",
        (false, false) => "the model alone, without genfer and Woolquern's library",
    }
}

impl Run {
    fn new(judge: Judge) -> Run {
        Run {
            judge,
            texts: 0,
            passed: 0,
            failed: 0,
            alone: 0,
            too_long: 0,
            coverage: Coverage::default(),
        }
    }

    fn cases(&mut self) {
        for (text, line) in CASES {
            let model = model::of_text(text.as_bytes(), &self.judge.limits, cases::STEPS);
            self.expect(text, line, &model.outcome.to_string());
            self.check_asked(text.as_bytes(), Asked::Thoroughly);
        }
        for (text, passes) in PASSES {
            let model = model::of_text(text.as_bytes(), &self.judge.limits, cases::STEPS);
            let said = model
                .accepted
                .and_then(|program| Some(program.loops.last()?.passes));
            self.expect(text, &format!("{:?}", Some(passes)), &format!("{:?}", said));
            self.check_asked(text.as_bytes(), Asked::Thoroughly);
        }
        for difference in differences::of_texts() {
            self.check_asked(difference.text.as_bytes(), Asked::Thoroughly);
            self.expect_answers(&difference);
        }
        for difference in differences::of_callers() {
            self.expect_answers(&difference);
        }
        println!("cases by hand: {}", self.passed);
    }

    fn short_lists(&mut self, length: usize) {
        all_lists(&MANY_WORDS, length.min(3), &mut |words| {
            self.check_words(words)
        });
        all_programs(&FEW_WORDS, length, &mut |words| self.check_words(words));
        all_programs(&FEWEST_WORDS, length + 3, &mut |words| {
            self.check_words(words)
        });
        println!("with all short lists: {}", self.passed);
    }

    fn random_programs(&mut self, arguments: &Arguments) {
        let mut random = Random::new(arguments.seed);
        for index in 0..arguments.count {
            let words = program(&mut random, Reach::OF_DOCUMENT);
            self.check_words(&words);
            self.check_words(&damage::words(&mut random, &words));
            if index % 4 == 0 {
                let spaced = damage::spaced_text(&mut random, &words);
                self.check(&damage::text(&mut random, &spaced));
                self.check(&spaced);
            }
            if index % LOOPS_ALONE == 0 {
                if let Some(looped) = first_loop(&words) {
                    self.check_words(&looped);
                }
            }
        }
        println!("with random programs: {}", self.passed);
    }

    /// Texts and word lists at the limits of their length, and the programs of the benchmark.
    fn long_programs(&mut self, arguments: &Arguments) {
        let mut random = Random::new(arguments.seed);
        for _ in 0..2 + arguments.count / 2_000 {
            let words = long_program(&mut random, 8_000);
            self.check_words(&words);
            self.check_words(&damage::words(&mut random, &words));
        }
        for count in [8_191, 8_192] {
            let mut words = vec![6; count + 1];
            words[0] = count as u64;
            self.check_words(&words);
        }
        for length in [65_535, 65_536, 65_537] {
            let mut text = vec![b' '; length];
            self.check(&text);
            text[length - 3..].copy_from_slice(b"[0]");
            self.check(&text);
        }
        for text in benchmark::texts() {
            self.check(&text);
        }
        println!("with long programs: {}", self.passed);
    }

    /// Genfer against the model's rules beyond document 01's limits: nothing else differs there.
    fn without_limits(&mut self, arguments: &Arguments) {
        let mut random = Random::new(arguments.seed);
        let mut run = Run::new(Judge::lifted(arguments.steps));
        for _ in 0..arguments.count / 4 {
            let words = program(&mut random, Reach::BEYOND);
            run.check_words(&words);
        }
        self.passed += run.passed;
        self.failed += run.failed;
        self.alone += run.alone;
        self.too_long += run.too_long;
        println!("with limits lifted: {}", self.passed);
    }

    /// Genfer against the model from ranges and unrolls that a caller gives.
    fn from_starts(&mut self, arguments: &Arguments) {
        let mut random = Random::new(arguments.seed);
        for _ in 0..arguments.count / 2 {
            let words = program(&mut random, Reach::OF_DOCUMENT);
            let variables = words.iter().filter(|word| **word < 64).max();
            let start = start(&mut random, variables.map_or(0, |most| *most as usize + 1));
            match self.judge.judge_from(&words, &start) {
                Verdict::Agree(_) => self.passed += 1,
                Verdict::Alone(_) => self.alone += 1,
                Verdict::TooLong => self.too_long += 1,
                Verdict::Differ(report) => {
                    self.failed += 1;
                    println!("failed: {:?} from {:?}\n{}", words, start, report);
                }
            }
        }
        println!("with callers' starting states: {}", self.passed);
    }

    fn expect_answers(&mut self, difference: &Difference) {
        for (expected, said) in difference.answers() {
            self.expect(&difference.text, &expected, &said);
        }
    }

    fn expect(&mut self, text: &str, expected: &str, said: &str) {
        if expected == said {
            self.passed += 1;
            return;
        }
        self.failed += 1;
        println!("{}\n  is to give {:?} and gives {:?}", text, expected, said);
    }

    fn check_words(&mut self, words: &[u64]) {
        self.check(&text_of(words));
    }

    fn check(&mut self, text: &[u8]) {
        self.texts += 1;
        if self.texts % ASKED_ALL == 0 {
            self.check_asked(text, Asked::Thoroughly);
        } else {
            self.check_asked(text, Asked::Briefly);
        }
    }

    fn check_asked(&mut self, text: &[u8], asked: Asked) {
        match self.judge.judge(text, asked) {
            Verdict::Agree(answer) => {
                self.passed += 1;
                self.coverage.add(&answer);
            }
            Verdict::Alone(_) => self.alone += 1,
            Verdict::TooLong => self.too_long += 1,
            Verdict::Differ(_) => {
                self.failed += 1;
                self.report(text);
            }
        }
    }

    fn report(&self, text: &[u8]) {
        if self.failed > MOST_SHRUNK {
            return;
        }
        let judge = |text: &[u8]| self.judge.judge(text, Asked::Thoroughly);
        let differs = |text: &[u8]| matches!(judge(text), Verdict::Differ(_));
        let smallest = shrink::smallest(text, &differs);
        if let Verdict::Differ(report) = judge(&smallest) {
            println!("failed: {}", String::from_utf8_lossy(&smallest));
            println!("{}", report);
        }
    }
}
