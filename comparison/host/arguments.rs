//! What the host is asked to do.

pub const USAGE: &str = "\
--count N         random programs (5000)
--seed N          seed of the random programs (1)
--length N        all short programs of up to so many words (6)
--steps N         statements, passes and enumerated values that one program may take (30000)
--record FILE     write a recorded list of --count programs and their lines
--benchmark       time genfer and Woolquern
--explain TEXT    all that is said of one program";

#[derive(Debug, PartialEq, Eq)]
pub enum Mode {
    Compare,
    Record(String),
    Benchmark,
    Explain(String),
}

#[derive(Debug)]
pub struct Arguments {
    pub mode: Mode,
    pub count: u64,
    pub seed: u64,
    pub length: usize,
    pub steps: u64,
}

impl Arguments {
    pub fn read(words: &[String]) -> Result<Arguments, String> {
        let mut arguments = Arguments {
            mode: Mode::Compare,
            count: 5_000,
            seed: 1,
            length: 6,
            steps: 30_000,
        };
        let mut words = words.iter();
        while let Some(word) = words.next() {
            let mut value = || {
                let value = words.next();
                value.ok_or_else(|| format!("{} needs a value", word))
            };
            match word.as_str() {
                "--count" => arguments.count = number(value()?)?,
                "--seed" => arguments.seed = number(value()?)?,
                "--length" => arguments.length = number(value()?)? as usize,
                "--steps" => arguments.steps = number(value()?)?,
                "--record" => arguments.mode = Mode::Record(value()?.clone()),
                "--benchmark" => arguments.mode = Mode::Benchmark,
                "--explain" => arguments.mode = Mode::Explain(value()?.clone()),
                _ => return Err(format!("{} is not known:\n{}", word, USAGE)),
            }
        }
        Ok(arguments)
    }
}

fn number(word: &str) -> Result<u64, String> {
    word.parse().map_err(|_| format!("{} is no number", word))
}
