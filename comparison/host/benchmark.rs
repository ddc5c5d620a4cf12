//! Times genfer and Woolquern on the same programs, in one run.
//!
//! Genfer is timed twice: with its tree at hand, which leaves out what Woolquern does to read and to
//! check a text, and with the host's own reading of the text into that tree, the whole job.

use crate::damage::text_of;
use crate::model::{text, Limits};
use crate::{genfer_side, library};
use std::sync::atomic::{AtomicUsize, Ordering};
use std::time::{Duration, Instant};

/// How long one measurement lasts at least, and how many there are: the quickest counts.
const MEASURED: Duration = Duration::from_millis(10);
const ROUNDS: u32 = 5;

struct Row {
    name: &'static str,
    variables: u64,
    text: Vec<u8>,
}

/// Prints the table; nothing in it can fail.
pub fn print() -> u64 {
    println!(
        "nanoseconds for one program, the quickest of {} measurements",
        ROUNDS
    );
    println!("| program | n | bytes | genfer, tree at hand | genfer, text read | Woolquern | tree at hand / Woolquern | text read / Woolquern |");
    println!("|---|---|---|---|---|---|---|---|");
    for row in all_rows() {
        row.print();
    }
    0
}

/// The texts that are timed.
pub fn texts() -> Vec<Vec<u8>> {
    all_rows().into_iter().map(|row| row.text).collect()
}

fn all_rows() -> Vec<Row> {
    let sizes = [2, 8, 64];
    sizes
        .iter()
        .flat_map(|variables| rows(*variables))
        .collect()
}

impl Row {
    fn print(&self) {
        let mut times = [None; 3];
        if genfer_side::PRESENT {
            let ready = genfer_side::ready(&words_of(&self.text));
            times[0] = Some(time(|| ready.line().len()));
            times[1] = Some(time(|| whole_job(&self.text)));
        }
        if library::PRESENT {
            let mut out = [0; library::OUT_LENGTH];
            times[2] = Some(time(|| library::run(&self.text, &mut out)));
        }
        println!(
            "| {} | {} | {} | {} | {} | {} | {} | {} |",
            self.name,
            self.variables,
            self.text.len(),
            shown(times[0]),
            shown(times[1]),
            shown(times[2]),
            ratio(times[0], times[2]),
            ratio(times[1], times[2]),
        );
    }
}

fn words_of(text: &[u8]) -> Vec<u64> {
    text::words(text, &Limits::of_document()).expect("a program's text")
}

fn whole_job(text: &[u8]) -> usize {
    genfer_side::ready(&words_of(text)).line().len()
}

fn shown(time: Option<f64>) -> String {
    time.map_or("–".to_string(), |time| format!("{:.0}", time))
}

fn ratio(time: Option<f64>, woolquern: Option<f64>) -> String {
    match (time, woolquern) {
        (Some(time), Some(woolquern)) => format!("{:.2}", time / woolquern),
        _ => "–".to_string(),
    }
}

/// Holds what the timed work gave, so that the compiler cannot leave the work out.
static KEPT: AtomicUsize = AtomicUsize::new(0);

/// Nanoseconds for one turn of the work.
fn time(mut work: impl FnMut() -> usize) -> f64 {
    let mut turns = 1;
    while measure(turns, &mut work) < MEASURED {
        turns *= 2;
    }
    let quickest = (0..ROUNDS).map(|_| measure(turns, &mut work)).min();
    quickest.map_or(0.0, |time| time.as_nanos() as f64 / f64::from(turns))
}

fn measure(turns: u32, work: &mut impl FnMut() -> usize) -> Duration {
    let start = Instant::now();
    for _ in 0..turns {
        KEPT.fetch_add(work(), Ordering::Relaxed);
    }
    start.elapsed()
}

fn rows(variables: u64) -> Vec<Row> {
    let row = |name, statements: &[Vec<u64>]| Row {
        name,
        variables,
        text: text_of(&program(variables, statements)),
    };
    let long = |name, statements: &[Vec<u64>]| Row {
        name,
        variables,
        text: spread(&program(variables, &repeated(statements))),
    };
    vec![
        row("short straight rule", &straight(variables)),
        row("branches", &branches(variables)),
        row("loop that finds early", &[counting_loop(0, variables)]),
        row(
            "loop that joins 100 times and widens",
            &flag_loop(variables),
        ),
        row("two loops in one another", &[nest(variables, 2)]),
        row("three loops in one another", &[nest(variables, 3)]),
        row("normalize over 64 values", &normalize(variables)),
        long("64 KB of straight rules", &straight(variables)),
        long("64 KB of branches", &branches(variables)),
        long("64 KB of large sets", &[large_set(variables)]),
    ]
}

/// A program with that number of variables.
fn program(variables: u64, statements: &[Vec<u64>]) -> Vec<u64> {
    let last = [3, variables - 1, 0];
    [&list(statements), &last[..]]
        .concat()
        .into_iter()
        .enumerate()
        .map(|(place, word)| if place == 0 { word + 1 } else { word })
        .collect()
}

/// The statements behind their count.
fn list(statements: &[Vec<u64>]) -> Vec<u64> {
    [vec![statements.len() as u64], statements.concat()].concat()
}

fn grow(variable: u64) -> Vec<u64> {
    vec![2, variable, 1, 0, 0, 0, 1]
}

/// Four draws, four assignments and four decrements.
fn straight(variables: u64) -> Vec<Vec<u64>> {
    let rule = |index: u64| {
        let (variable, other) = (index % variables, (index * 7 + 1) % variables);
        vec![
            vec![1, variable, 0, 12, 2, 100],
            vec![2, other, 0, 1, 2, variable, 5],
            vec![3, other, 4],
        ]
    };
    (0..4).flat_map(rule).collect()
}

/// Eight tests of a draw, each with a list for both sides.
fn branches(variables: u64) -> Vec<Vec<u64>> {
    let rule = |index: u64| {
        let variable = index % variables;
        let event = vec![1, variable, 3, 0, 1, 10];
        let set = vec![2, variable, 0, 0, 0, 0, index];
        let test = [vec![4], event, list(&[set]), list(&[grow(variable)])].concat();
        vec![vec![1, variable, 0, 12, 0, 11], test]
    };
    (0..8).flat_map(rule).collect()
}

fn looped(variable: u64, values: &[u64], body: &[Vec<u64>]) -> Vec<u64> {
    let event = [&[1, variable, values.len() as u64], values].concat();
    [vec![5, 0, 0], event, list(body)].concat()
}

fn counting_loop(counter: u64, variables: u64) -> Vec<u64> {
    looped(
        counter,
        &[0, 1, 2, 3],
        &[grow(counter), vec![3, variables - 1, 0]],
    )
}

/// All other variables grow while a flag is drawn anew.
fn flag_loop(variables: u64) -> Vec<Vec<u64>> {
    let mut body = vec![vec![1, 0, 0, 2]];
    body.extend((1..variables).map(grow));
    vec![vec![2, 0, 0, 0, 0, 0, 1], looped(0, &[1], &body)]
}

/// Each loop sets the counter of the one in it back; with two variables the counters are shared.
fn nest(variables: u64, loops: u64) -> Vec<u64> {
    let counter = loops % variables;
    if loops == 1 {
        return counting_loop(counter, variables);
    }
    let inner = vec![2, (loops - 1) % variables, 0, 0, 0, 0, 0];
    let body = [grow(counter), inner, nest(variables, loops - 1)];
    looped(counter, &[0, 1, 2], &body)
}

fn normalize(variables: u64) -> Vec<Vec<u64>> {
    let last = variables - 1;
    let test = [vec![4, 1, 0, 2, 3, 5], list(&[grow(last)]), list(&[])].concat();
    let normalized = [vec![7, 1, 0], list(&[test, vec![3, last, 1]])].concat();
    vec![vec![1, 0, 0, 12, 0, 64], normalized]
}

fn large_set(variables: u64) -> Vec<u64> {
    let variable = variables - 1;
    let values: Vec<u64> = (0..250).map(|index| 4_000_000_000 + 7 * index).collect();
    let event = [vec![1, variable, values.len() as u64], values].concat();
    [vec![4], event, list(&[grow(variable)]), list(&[])].concat()
}

/// As many copies as a text of 65,536 bytes and 8,192 words holds.
fn repeated(statements: &[Vec<u64>]) -> Vec<Vec<u64>> {
    let words = statements.concat();
    let copies = (8_100 / words.len()).min(65_000 / text_of(&words).len());
    vec![statements.to_vec(); copies].concat()
}

/// The text of the words, white space after its commas, just as long as a text may be.
fn spread(words: &[u64]) -> Vec<u8> {
    let text = text_of(words);
    let spaces = (65_536 - text.len()) / words.len();
    let mut spread = Vec::new();
    for byte in text {
        spread.push(byte);
        if byte == b',' {
            spread.resize(spread.len() + spaces, b' ');
        }
    }
    spread.resize(65_536, b'\n');
    spread
}
