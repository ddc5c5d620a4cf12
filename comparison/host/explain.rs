//! All that is said of one program.

use crate::compare::{Asked, Judge, Verdict};
use crate::model::{self, Accepted, Limits};
use crate::{genfer_side, library};

const STEPS: u64 = 100_000_000;

/// Answers 1 where the answers differ.
pub fn print(text: &str) -> u64 {
    let answer = model::of_text(text.as_bytes(), &Limits::of_document(), STEPS);
    println!("model: {}", answer.outcome);
    if library::PRESENT {
        println!("Woolquern: {:?}", library::line(text.as_bytes()));
    }
    if let Some(accepted) = &answer.accepted {
        print_program(accepted);
    }
    match Judge::of_document(STEPS).judge(text.as_bytes(), Asked::Thoroughly) {
        Verdict::Differ(report) => {
            println!("{}", report);
            1
        }
        _ => 0,
    }
}

fn print_program(accepted: &Accepted) {
    for looped in &accepted.loops {
        let passes = &looped.passes;
        println!(
            "a loop left: search {}, unrolled {}, joining {}, widening {}; settled on {}",
            passes.search, passes.unrolled, passes.joining, passes.widening, looped.settled
        );
    }
    println!("lists that no pass entered: {:?}", accepted.dead_lists());
    if genfer_side::PRESENT {
        println!("genfer: {:?}", genfer_side::answer(&accepted.words));
    }
}
