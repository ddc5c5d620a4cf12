//! Woolquern's other two functions against the model: the lists that were entered, and a loop's own
//! entry. Each buffer is to be as the model says, to its last byte and behind it.

use crate::compare::Asked;
use crate::library;
use crate::model::{Answer, Outcome};
use std::fmt::Debug;

/// The line where another buffer is too short.
const NO_ROOM: &str = "refused 2 at 0\n";

/// A buffer that is lent to a call, with a few items behind it.
struct Lent<T> {
    items: Vec<T>,
    room: usize,
    untouched: T,
}

const BEHIND: usize = 4;

impl<T: Copy + Debug + PartialEq> Lent<T> {
    fn new(room: usize, untouched: T) -> Lent<T> {
        Lent {
            items: vec![untouched; room + BEHIND],
            room,
            untouched,
        }
    }

    fn slice(&mut self) -> &mut [T] {
        &mut self.items[..self.room]
    }

    /// Up to the last item that a call changed.
    fn written(&self) -> &[T] {
        let changed = |item: &T| *item != self.untouched;
        let last = self.items.iter().rposition(changed);
        &self.items[..last.map_or(0, |last| last + 1)]
    }

    /// It begins with these, and the rest is as it was.
    fn expect(&self, what: &str, expected: &[T]) -> Result<(), String> {
        expect(what, self.written(), expected)
    }
}

impl Lent<u8> {
    fn expect_text(&self, what: &str, expected: &str) -> Result<(), String> {
        expect(what, &*String::from_utf8_lossy(self.written()), expected)
    }
}

fn expect<T: Debug + PartialEq + ?Sized>(what: &str, is: &T, expected: &T) -> Result<(), String> {
    if is == expected {
        return Ok(());
    }
    Err(format!("{} {:?}, by the model {:?}", what, is, expected))
}

fn bytes(room: usize) -> Lent<u8> {
    Lent::new(room, 0xA5)
}

fn numbers(room: usize) -> Lent<u64> {
    Lent::new(room, 0xA5A5_A5A5_A5A5_A5A5)
}

/// The line that a call wrote, and how many bytes it answers to have written.
fn expect_line(function: &str, written: usize, out: &Lent<u8>, line: &str) -> Result<(), String> {
    out.expect_text(&format!("{} writes", function), line)?;
    expect(&format!("{} answers", function), &written, &line.len())
}

/// The marks of a text, whose answer by the model is this: none where it is refused.
pub fn marks_agree(text: &[u8], answer: &Answer, asked: Asked) -> Result<(), String> {
    let line = format!("{}\n", answer.outcome);
    let marks = match (&answer.outcome, &answer.accepted) {
        (Outcome::State(_), Some(accepted)) => accepted.marks(),
        _ => Vec::new(),
    };
    let more = room_to_spare(text);
    let (enough, room) = (marks.len() + more, line.len() + more);
    expect_marks(text, enough, room, &line, &marks)?;
    if asked == Asked::Briefly {
        return Ok(());
    }
    if let Some(short) = marks.len().checked_sub(1) {
        expect_marks(text, short, NO_ROOM.len(), NO_ROOM, &[])?;
    }
    expect_marks(text, enough, line.len() - 1, "", &[])
}

/// None, so that just enough is tried as well, or a little.
fn room_to_spare(text: &[u8]) -> usize {
    text.len() % 3 * 5
}

fn expect_marks(
    text: &[u8],
    marks_room: usize,
    out_room: usize,
    line: &str,
    expected: &[u8],
) -> Result<(), String> {
    let (mut marks, mut out) = (bytes(marks_room), bytes(out_room));
    let written = library::marks(text, marks.slice(), out.slice());
    expect_line("woolquern_marks", written, &out, line)?;
    let what = format!("woolquern_marks leaves in {} bytes of marks", marks_room);
    marks.expect(&what, expected)
}

/// What one call of the loop's entry is to leave.
#[derive(Default)]
struct Looped {
    line: String,
    counts: Vec<u64>,
    settled: String,
}

/// The model's counts and settled state, none where it refuses.
fn looped(answer: &Answer) -> Looped {
    let line = format!("{}\n", answer.outcome);
    let last = answer.accepted.as_ref().and_then(|it| it.loops.last());
    match (&answer.outcome, last) {
        (Outcome::State(_), Some(last)) => Looped {
            line,
            counts: last.passes.counts().to_vec(),
            settled: format!("{}\n", last.settled),
        },
        _ => Looped::refused(&line),
    }
}

impl Looped {
    fn refused(line: &str) -> Looped {
        Looped {
            line: line.to_string(),
            ..Looped::default()
        }
    }

    /// With room for so many counts, and for so many bytes of the settled state and of the line.
    fn expect(&self, text: &[u8], unroll: u64, rooms: [usize; 3]) -> Result<(), String> {
        let [many, long, out_room] = rooms;
        let (mut counts, mut settled, mut out) = (numbers(many), bytes(long), bytes(out_room));
        let written = library::looped(
            text,
            unroll as usize,
            counts.slice(),
            settled.slice(),
            out.slice(),
        );
        let function = format!("woolquern_loop with unroll {}", unroll);
        expect_line(&function, written, &out, &self.line)?;
        let what = format!("{} leaves in {} counts", function, many);
        counts.expect(&what, &self.counts)?;
        let what = format!(
            "{} leaves in {} bytes for the settled state",
            function, long
        );
        settled.expect_text(&what, &self.settled)
    }
}

/// The loop's own entry, whose answer by the model is this.
pub fn loop_agrees(text: &[u8], unroll: u64, answer: &Answer, asked: Asked) -> Result<(), String> {
    let left = looped(answer);
    let more = room_to_spare(text);
    let (many, long) = (left.counts.len() + more, left.settled.len() + more);
    left.expect(text, unroll, [many, long, left.line.len() + more])?;
    if asked == Asked::Briefly {
        return Ok(());
    }
    if let Some(short) = left.settled.len().checked_sub(1) {
        let refused = Looped::refused(NO_ROOM);
        refused.expect(text, unroll, [3, long, NO_ROOM.len()])?;
        refused.expect(text, unroll, [many, short, NO_ROOM.len()])?;
    }
    let nothing = Looped::default();
    nothing.expect(text, unroll, [many, long, left.line.len() - 1])
}
