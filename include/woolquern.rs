// Woolquern's functions for Rust, as `woolquern.h` declares them for C: `include!` this file, and
// link target/staticlib/libwoolquern.a (x86-64 Linux; `./library` proves and writes it).
//
// A slice is a pointer and a length; no two of the slices of one call may overlap. Every function
// gives the number of bytes that it wrote to the start of `out`: one line with its line feed. It
// gives 0 where `out` is too short for it: then `out` and every other buffer is as it was. 2,048
// bytes are enough for every line. What lies beyond the bytes written is left as it was.

extern "C" {
    /// The whole job: the line for a text, with every variable starting at [0,0] and unroll 0 where a
    /// loop names none.
    pub fn woolquern_run(text: *const u8, text_length: usize, out: *mut u8, out_length: usize) -> usize;

    /// The same line, and where it is no refusal a byte for each word of the text to the start of
    /// `marks`: 1 at the count of a then-list, an else-list or a loop body that is entered, else 0.
    /// Where the text has more words than `marks` has bytes the line is `refused 2 at 0`; 8,192 are
    /// enough. A refusal leaves `marks` as it was.
    pub fn woolquern_marks(text: *const u8, text_length: usize, marks: *mut u8, marks_length: usize, out: *mut u8, out_length: usize) -> usize;

    /// The line for a text whose one statement is a loop, with `unroll` (at most 10,000) where the
    /// loop names none. Where it is no refusal, the numbers of its search, unrolled, joining and
    /// widening passes go to the first four of `counts`, and the line of the state that the loop
    /// settled on, its line feed included, to the start of `settled`. Where one of these two is too
    /// short the line is `refused 2 at 0`. A refusal leaves both as they were.
    pub fn woolquern_loop(text: *const u8, text_length: usize, unroll: usize, counts: *mut u64, counts_length: usize, settled: *mut u8, settled_length: usize, out: *mut u8, out_length: usize) -> usize;
}
