//! The smallest program that still fails.

use crate::damage::text_of;
use crate::model::tree::Statement;
use crate::model::{reader, text, Limits};
use std::ops::Range;
use std::time::{Duration, Instant};

/// How long a smaller program is looked for.
const LONGEST: Duration = Duration::from_secs(10);

/// One way to make a list smaller: a part replaced, and an item before it lowered with it.
struct Edit<T> {
    part: Range<usize>,
    instead: Vec<T>,
    lowered: Option<(usize, T)>,
}

impl<T: Clone> Edit<T> {
    fn new(part: Range<usize>, instead: &[T]) -> Edit<T> {
        Edit {
            part,
            instead: instead.to_vec(),
            lowered: None,
        }
    }

    fn lowering(self, place: usize, item: T) -> Edit<T> {
        Edit {
            lowered: Some((place, item)),
            ..self
        }
    }

    fn apply(&self, items: &[T]) -> Vec<T> {
        let mut copy = items.to_vec();
        if let Some((place, item)) = &self.lowered {
            copy[*place] = item.clone();
        }
        copy.splice(self.part.clone(), self.instead.iter().cloned());
        copy
    }
}

/// A small text that fails as the given one does: in time, no single edit below makes it smaller.
pub fn smallest(failing: &[u8], fails: &dyn Fn(&[u8]) -> bool) -> Vec<u8> {
    let fails_as_words = |words: &[u64]| fails(&text_of(words));
    match text::words(failing, &Limits::lifted()) {
        Ok(words) if fails_as_words(&words) => {
            text_of(&shrink(words, &word_edits, &fails_as_words))
        }
        _ => shrink(failing.to_vec(), &text_edits, fails),
    }
}

/// Goes over all edits again and again, and takes each that leaves a list that still fails.
fn shrink<T: Clone>(
    mut failing: Vec<T>,
    edits: &dyn Fn(&[T]) -> Vec<Edit<T>>,
    fails: &dyn Fn(&[T]) -> bool,
) -> Vec<T> {
    let end = Instant::now() + LONGEST;
    let mut skipped = 0;
    loop {
        let all = edits(&failing);
        let copies = all.iter().enumerate().skip(skipped);
        let mut copies = copies.map(|(index, edit)| (index, edit.apply(&failing)));
        let taken = copies.find(|(_, copy)| Instant::now() > end || fails(copy));
        match taken {
            _ if Instant::now() > end => return failing,
            Some((index, copy)) => {
                failing = copy;
                skipped = index;
            }
            None if skipped == 0 => return failing,
            None => skipped = 0,
        }
    }
}

fn text_edits(text: &[u8]) -> Vec<Edit<u8>> {
    let mut edits = drops(text);
    for (place, byte) in text.iter().enumerate() {
        if (b'1'..=b'9').contains(byte) {
            edits.push(Edit::new(place..place + 1, &[byte - 1]));
        }
    }
    edits
}

fn word_edits(words: &[u64]) -> Vec<Edit<u64>> {
    let mut edits = Vec::new();
    let limits = Limits::lifted();
    if let Ok(program) = reader::program(words, limits.variables, &limits) {
        fewer_statements(words, 0, &program.statements, &mut edits);
    }
    edits.extend(drops(words));
    fewer_counted(words, &mut edits);
    smaller_numbers(words, &mut edits);
    edits
}

/// Each statement dropped, or one of its lists put in its place; `count` is where their count stands.
fn fewer_statements(
    words: &[u64],
    count: usize,
    statements: &[Statement],
    edits: &mut Vec<Edit<u64>>,
) {
    for statement in statements {
        let part = statement.place..statement.end;
        let others = words[count] - 1;
        edits.push(Edit::new(part.clone(), &[]).lowering(count, others));
        for list in statement.lists() {
            let first = list.place + 1;
            let end = list.statements.last().map_or(first, |last| last.end);
            let hoisted = others + list.statements.len() as u64;
            edits.push(Edit::new(part.clone(), &words[first..end]).lowering(count, hoisted));
            fewer_statements(words, list.place, &list.statements, edits);
        }
    }
}

/// Neighbours dropped, from all of them down to one.
fn drops<T: Clone>(items: &[T]) -> Vec<Edit<T>> {
    let mut edits = Vec::new();
    let mut length = items.len();
    while length > 0 {
        for place in 0..=items.len() - length {
            edits.push(Edit::new(place..place + length, &[]));
        }
        length /= 2;
    }
    edits
}

/// A few neighbours dropped and a word shortly before them lowered by one, as if it counted them.
fn fewer_counted(words: &[u64], edits: &mut Vec<Edit<u64>>) {
    for place in 0..words.len() {
        for length in 1..=4.min(words.len() - place) {
            for count in place.saturating_sub(12)..place {
                let others = words[count].saturating_sub(1);
                edits.push(Edit::new(place..place + length, &[]).lowering(count, others));
            }
        }
    }
}

fn smaller_numbers(words: &[u64], edits: &mut Vec<Edit<u64>>) {
    for (place, word) in words.iter().enumerate() {
        for smaller in [0, 1, word / 2, word.saturating_sub(1)] {
            if smaller < *word {
                edits.push(Edit::new(place..place + 1, &[smaller]));
            }
        }
    }
}
