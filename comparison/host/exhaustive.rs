//! All short word lists over a few words.

use crate::model::{reader, Limits, Refusal};

/// Small enough to go far, with every kind of statement and event and the top value.
pub const FEW_WORDS: [u64; 9] = [0, 1, 2, 3, 4, 5, 6, 7, 4_294_967_295];

/// Fewer still, to go further: draws, assignments, branches and loops.
pub const FEWEST_WORDS: [u64; 5] = [0, 1, 2, 4, 5];

/// Every kind of draw too, and what lies beside a kind or a limit.
pub const MANY_WORDS: [u64; 24] = [
    0,
    1,
    2,
    3,
    4,
    5,
    6,
    7,
    8,
    9,
    10,
    11,
    12,
    13,
    14,
    15,
    16,
    63,
    64,
    256,
    257,
    10_001,
    4_294_967_295,
    4_294_967_296,
];

/// Visits every list of at most `length` of the words.
pub fn all_lists(words: &[u64], length: usize, visit: &mut dyn FnMut(&[u64])) {
    extend(words, length, &mut Vec::new(), &|_| true, visit);
}

/// Visits every list of at most `length` of the words that is a program or that some program of
/// more words begins with, and each of these with one word too many or a word that cannot follow.
pub fn all_programs(words: &[u64], length: usize, visit: &mut dyn FnMut(&[u64])) {
    extend(words, length, &mut Vec::new(), &is_beginning, visit);
}

fn extend(
    words: &[u64],
    length: usize,
    list: &mut Vec<u64>,
    goes_on: &dyn Fn(&[u64]) -> bool,
    visit: &mut dyn FnMut(&[u64]),
) {
    visit(list);
    if list.len() == length || !goes_on(list) {
        return;
    }
    for word in words {
        list.push(*word);
        extend(words, length, list, goes_on, visit);
        list.pop();
    }
}

/// Whether all that is wrong with the list is that it is short, or nothing is.
fn is_beginning(list: &[u64]) -> bool {
    let limits = Limits::of_document();
    match reader::program(list, limits.variables, &limits) {
        Ok(_) => true,
        Err(refusal) => refusal == Refusal::new(3, list.len()),
    }
}
