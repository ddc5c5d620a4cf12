//! Damaged copies of programs, as words and as texts.

use crate::model::ranges::TOP;
use crate::random::Random;

/// A copy of the words with one to three of them changed, dropped, added, exchanged or cut off.
pub fn words(random: &mut Random, words: &[u64]) -> Vec<u64> {
    let mut damaged = words.to_vec();
    for _ in 0..random.between(1, 3) {
        damage_word(random, &mut damaged);
    }
    damaged
}

fn damage_word(random: &mut Random, words: &mut Vec<u64>) {
    let word = any_word(random);
    if words.is_empty() {
        words.push(word);
        return;
    }
    let place = random.below(words.len() as u64) as usize;
    let other = random.below(words.len() as u64) as usize;
    match random.below(8) {
        0 => words[place] = word,
        1 => words[place] = words[place].wrapping_add(1),
        2 => words[place] = words[place].saturating_sub(1),
        3 => drop(words.remove(place)),
        4 => words.insert(place, word),
        5 => words.swap(place, other),
        6 => words.truncate(place),
        _ => words.push(word),
    }
}

/// A word that means something somewhere, or lies beside a limit.
fn any_word(random: &mut Random) -> u64 {
    match random.below(4) {
        0 | 1 => random.below(17),
        2 => random.pick(&[
            63,
            64,
            65,
            255,
            256,
            257,
            4_096,
            4_097,
            10_000,
            10_001,
            TOP - 1,
            TOP,
            TOP + 1,
            TOP + 2,
            1 << 33,
            u64::MAX - 1,
            u64::MAX,
        ]),
        _ => random.next() >> random.below(64),
    }
}

pub fn text_of(words: &[u64]) -> Vec<u8> {
    let numbers: Vec<String> = words.iter().map(u64::to_string).collect();
    format!("[{}]", numbers.join(",")).into_bytes()
}

/// The text of the words with white space between its tokens.
pub fn spaced_text(random: &mut Random, words: &[u64]) -> Vec<u8> {
    let mut text = Vec::new();
    for byte in text_of(words) {
        let digit = byte.is_ascii_digit();
        if !digit {
            white_space(random, &mut text);
        }
        text.push(byte);
        if !digit {
            white_space(random, &mut text);
        }
    }
    text
}

fn white_space(random: &mut Random, text: &mut Vec<u8>) {
    while random.one_in(3) {
        text.push(random.pick(b" \t\n\r"));
    }
}

/// A copy of the text with one to three of its bytes changed, dropped, added or cut off.
pub fn text(random: &mut Random, text: &[u8]) -> Vec<u8> {
    let mut damaged = text.to_vec();
    for _ in 0..random.between(1, 3) {
        damage_text(random, &mut damaged);
    }
    damaged
}

fn damage_text(random: &mut Random, text: &mut Vec<u8>) {
    let place = random.below(text.len() as u64 + 1) as usize;
    let piece = random.pick(&PIECES);
    match random.below(6) {
        0 => text.truncate(place),
        1 => text.insert(place, random.below(256) as u8),
        2 if place < text.len() => drop(text.remove(place)),
        3 if place < text.len() => text[place] = random.pick(b"0123456789[], -.eE\"\t\r"),
        _ => drop(text.splice(place..place, piece.bytes())),
    }
}

/// What is put into a text: mostly what RFC 8259 or document 01 does not allow there.
const PIECES: [&str; 24] = [
    "0",
    "00",
    "01",
    " ",
    "\t\r\n",
    "\u{b}",
    "\u{a0}",
    "\u{feff}",
    "\0",
    ",",
    ",,",
    "[",
    "]",
    "[]",
    "-0",
    "1.0",
    "1e1",
    "null",
    "\"1\"",
    "18446744073709551615",
    "18446744073709551616",
    "18446744073709551620",
    "99999999999999999999",
    "100000000000000000000",
];
