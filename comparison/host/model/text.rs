//! Reading a text: one RFC 8259 array of unsigned integers (refusals 1 and 2).

use super::{Limits, Refusal};

/// What has been read so far.
#[derive(Clone, Copy)]
enum Seen {
    Nothing,
    Open,
    Digits(u64),
    Number,
    Comma,
    Closed,
}

pub fn words(text: &[u8], limits: &Limits) -> Result<Vec<u64>, Refusal> {
    if text.len() > limits.bytes {
        return Err(Refusal::new(2, 0));
    }
    let mut numbers = Vec::new();
    let mut seen = Seen::Nothing;
    for (place, byte) in text.iter().enumerate() {
        let next = after(seen, *byte).ok_or_else(|| Refusal::new(1, place))?;
        if let (Seen::Digits(number), false) = (seen, byte.is_ascii_digit()) {
            numbers.push(number);
        }
        seen = next;
    }
    if !matches!(seen, Seen::Closed) {
        return Err(Refusal::new(1, text.len()));
    }
    if numbers.len() > limits.words {
        return Err(Refusal::new(2, 0));
    }
    Ok(numbers)
}

/// `None` where no such text goes on with this byte.
fn after(seen: Seen, byte: u8) -> Option<Seen> {
    match (seen, byte) {
        (Seen::Digits(number), b'0'..=b'9') => more_digits(number, byte),
        (Seen::Digits(_), b' ' | b'\t' | b'\n' | b'\r') => Some(Seen::Number),
        (_, b' ' | b'\t' | b'\n' | b'\r') => Some(seen),
        (Seen::Nothing, b'[') => Some(Seen::Open),
        (Seen::Open | Seen::Comma, b'0'..=b'9') => Some(Seen::Digits(u64::from(byte - b'0'))),
        (Seen::Digits(_) | Seen::Number, b',') => Some(Seen::Comma),
        (Seen::Open | Seen::Digits(_) | Seen::Number, b']') => Some(Seen::Closed),
        _ => None,
    }
}

/// A number has no leading zero and stays below 2^64.
fn more_digits(number: u64, digit: u8) -> Option<Seen> {
    if number == 0 {
        return None;
    }
    let more = number
        .checked_mul(10)?
        .checked_add(u64::from(digit - b'0'))?;
    Some(Seen::Digits(more))
}
