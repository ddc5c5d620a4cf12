/* Woolquern's functions for C. The library is target/staticlib/libwoolquern.a, for x86-64 Linux:
 * `./library` proves it and writes it.
 *
 * A text is a rule in words, a JSON array of unsigned integers; bytes that are none are refused. Each
 * buffer is a pointer and a length, may hold anything before a call, and overlaps no other of that
 * call. Nothing is kept from call to call.
 *
 * Every function gives the number of bytes that it wrote to the start of `out`: one line with its line
 * feed, and no zero byte after it. It gives 0 where `out` is too short for the line: then `out` and
 * every other buffer is as it was. 2,048 bytes are enough for every line. What lies beyond the bytes
 * written is left as it was. */
#ifndef WOOLQUERN_H
#define WOOLQUERN_H

#include <stddef.h>
#include <stdint.h>

#ifdef __cplusplus
extern "C" {
#endif

/* The whole job: the line for a text, with every variable starting at [0,0] and unroll 0 where a
 * loop names none. */
size_t woolquern_run(const uint8_t *text, size_t text_length, uint8_t *out, size_t out_length);

/* The same line, and where it is no refusal a byte for each word of the text to the start of
 * `marks`: 1 at the count of a then-list, an else-list or a loop body that is entered, else 0. Where
 * the text has more words than `marks` has bytes the line is `refused 2 at 0`; 8,192 are enough. A
 * refusal leaves `marks` as it was. */
size_t woolquern_marks(const uint8_t *text, size_t text_length, uint8_t *marks, size_t marks_length, uint8_t *out, size_t out_length);

/* The line for a text whose one statement is a loop, with `unroll` (at most 10,000) where the loop
 * names none. Where it is no refusal, the numbers of its search, unrolled, joining and widening
 * passes go to the first four of `counts`, and the line of the state that the loop settled on, its
 * line feed included, to the start of `settled`. Where one of these two is too short the line is
 * `refused 2 at 0`. A refusal leaves both as they were. */
size_t woolquern_loop(const uint8_t *text, size_t text_length, size_t unroll, uint64_t *counts, size_t counts_length, uint8_t *settled, size_t settled_length, uint8_t *out, size_t out_length);

#ifdef __cplusplus
}
#endif

#endif
