//! Compares Woolquern with genfer, and both with a model of document 01.
//!
//! The host starts as a C program does: an emulator of x86-64 (qemu 8.2.2) cannot bear Rust's own start.
#![no_main]
#![allow(unknown_lints, unexpected_cfgs)]

mod answers;
mod arguments;
mod benchmark;
mod cases;
mod compare;
mod coverage;
mod damage;
mod differences;
mod entries;
mod exhaustive;
mod explain;
#[cfg_attr(not(genfer), path = "no_genfer.rs")]
mod genfer_side;
mod library;
mod model;
mod programs;
mod random;
mod record;
mod run;
mod shrink;
#[cfg(genfer)]
mod translate;
mod watch;

use arguments::{Arguments, Mode};
use std::ffi::CStr;
use std::os::raw::{c_char, c_int};

#[no_mangle]
pub extern "C" fn main(count: c_int, words: *const *const c_char) -> c_int {
    let words: Vec<String> = (1..count as usize)
        .map(|index| unsafe { CStr::from_ptr(*words.add(index)) })
        .map(|word| word.to_string_lossy().into_owned())
        .collect();
    genfer_side::silence_panics();
    watch::start();
    match Arguments::read(&words).and_then(|arguments| start(&arguments)) {
        Ok(failed) => c_int::from(failed > 0),
        Err(wrong) => {
            eprintln!("{}", wrong);
            2
        }
    }
}

/// Answers how many programs failed.
fn start(arguments: &Arguments) -> Result<u64, String> {
    match &arguments.mode {
        Mode::Compare => Ok(run::compare(arguments)),
        Mode::Record(file) => record::write(arguments, file),
        Mode::Benchmark => Ok(benchmark::print()),
        Mode::Explain(text) => Ok(explain::print(text)),
    }
}
