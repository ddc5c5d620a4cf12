//! Programs with the line that document 01, or a decision taken on it, gives by hand.

use crate::model::rules::Passes;

/// More steps than any case by hand takes.
pub const STEPS: u64 = 30_000;

/// A text and its line.
pub const CASES: [(&str, &str); 72] = [
    // Document 01, 'Run only'.
    (
        "[2,2,0,0,0,0,0,1,5,0,0,1,0,1,1,2,1,0,0,2,2,1,1,0,0,0,1]",
        "{0}, {0, ...}",
    ),
    (
        "[2,1,0,0,12,0,11,4,1,0,1,10,1,2,0,0,0,0,0,0,0]",
        "{0, ..., 9}",
    ),
    ("[0]", ""),
    ("[1,6]", "empty"),
    ("[1,7,1,0,0]", "refused 5 at 3"),
    ("[01]", "refused 1 at 2"),
    // Document 01, 'Proved table', row by row.
    ("[2,1,0,0,12,2,6,1,0,1,12,5,5]", "{2, ..., 5}"),
    (
        "[2,2,0,0,0,0,0,4294967295,2,0,1,0,0,0,1]",
        "{4294967295, ...}",
    ),
    ("[1,4,1,0,1,0,1,6,0]", "empty"),
    ("[2,1,0,0,5,10,4,1,0,3,10,3,20,0,1,6]", "{3, ..., 10}"),
    ("[2,1,0,0,5,10,4,1,0,4,10,0,9,1,1,6,0]", "{2, ..., 8}"),
    ("[2,1,0,0,5,10,4,1,0,1,5,1,6,0]", "{0, ..., 10}"),
    (
        "[2,2,0,0,0,0,0,4294967294,4,1,0,2,4294967294,4294967295,0,0]",
        "refused 8 at 9",
    ),
    ("[2,2,0,0,0,0,0,2147483647,2,0,0,1,2,0,0]", "{4294967294}"),
    ("[2,2,0,0,0,0,0,2147483648,2,0,0,1,2,0,0]", "refused 8 at 8"),
    ("[2,1,0,0,9,2,0,0,1,0,0,0]", "{0, ...}"),
    ("[2,1,0,0,12,3,8,3,0,5]", "{0, ..., 2}"),
    ("[2,2,0,0,0,0,0,4,1,0,0,12,5,5]", "{0}"),
    ("[2,2,0,0,0,0,0,4,1,0,1,12,5,5]", "{4}"),
    ("[1,5,0,0,1,0,1,0,1,2,0,1,0,0,0,1]", "{1}"),
    // White space, numbers and ends of texts.
    ("", "refused 1 at 0"),
    (" ", "refused 1 at 1"),
    ("[", "refused 1 at 1"),
    ("[]", "refused 3 at 0"),
    ("\t[ \r\n0\n ] ", ""),
    ("[0]]", "refused 1 at 3"),
    ("[0] x", "refused 1 at 4"),
    ("[1,]", "refused 1 at 3"),
    ("[,", "refused 1 at 1"),
    ("[1 2]", "refused 1 at 3"),
    ("[-0]", "refused 1 at 1"),
    ("[0.0]", "refused 1 at 2"),
    ("[0e0]", "refused 1 at 2"),
    ("[00]", "refused 1 at 2"),
    ("\u{feff}[0]", "refused 1 at 0"),
    ("[18446744073709551615]", "refused 3 at 1"),
    ("[18446744073709551616]", "refused 1 at 20"),
    ("[100000000000000000000]", "refused 1 at 21"),
    ("[99999999999999999999]", "refused 1 at 20"),
    // Words: the first bad one, and lists that end too soon or too late.
    ("[5,9]", "refused 3 at 1"),
    ("[5,6,6]", "refused 3 at 3"),
    ("[0,0]", "refused 3 at 1"),
    ("[1,0]", "refused 3 at 1"),
    ("[1,8]", "refused 3 at 1"),
    ("[1,1,0,2,2]", "refused 3 at 3"),
    ("[1,1,64,0,2]", "refused 5 at 2"),
    ("[1,1,63,0,16]", "refused 3 at 4"),
    ("[1,1,0,0,0]", "refused 3 at 4"),
    ("[1,1,0,0,6,4294967296]", "refused 3 at 5"),
    ("[1,3,0,4294967296]", "refused 3 at 3"),
    ("[1,2,0,0,0,1,0,0]", "refused 3 at 5"),
    ("[1,2,0,0,0,0,64,0]", "refused 3 at 6"),
    ("[1,2,0,0,1,1,64,0]", "refused 5 at 6"),
    // Limits: 4 is before 3 at one word.
    ("[1,5,0,10001,5,0,0]", "refused 4 at 3"),
    ("[1,5,0,10000,5,0,0]", "refused 3 at 3"),
    ("[1,5,1,10000,5,0,0]", "empty"),
    ("[1,5,1,4294967296,5,0,0]", "refused 4 at 3"),
    ("[1,4,1,0,257]", "refused 4 at 4"),
    ("[1,7,9]", "refused 4 at 2"),
    (
        "[1,5,0,0,5,0,1,5,0,0,5,0,1,5,0,0,5,0,1,5,0,0,5,0,0]",
        "refused 4 at 19",
    ),
    ("[1,4,4,4,4,4,4,4,4,4,4,4,4,4,4,4,4,4,9]", "refused 4 at 18"),
    ("[1,4,4,4,4,4,4,4,4,4,4,4,4,4,4,4,4,4]", "refused 3 at 18"),
    ("[1,4,4,4,4,4,4,4,4,4,4,4,4,4,4,4,4,5,0,0,0]", ""),
    // Draws that are no whole numbers.
    ("[1,1,0,0,1,1,2]", "refused 6 at 6"),
    ("[1,1,0,0,1,0,0]", "refused 6 at 6"),
    ("[1,1,0,0,1,4294967296,1]", "refused 6 at 6"),
    ("[1,4,3,0,14,0,0]", "refused 6 at 4"),
    // Given variables.
    ("[2,7,1,0,0,9]", "refused 3 at 5"),
    ("[3,1,0,0,2,6,7,1,0,0]", "refused 9 at 8"),
    ("[2,1,0,0,9,7,1,0,0]", "refused 9 at 7"),
    ("[2,1,0,0,5,4095,7,1,0,0]", "{0, ..., 4095}"),
    ("[2,1,0,0,5,4294967295,7,1,0,0]", "refused 10 at 8"),
];

/// A text and the passes of its last loop: document 01's 'Proved table', rows 12 and 13, and a loop
/// alone that widens as that of row 13 does.
pub const PASSES: [(&str, Passes); 3] = [
    (
        "[1,5,0,0,1,0,1,0,1,2,0,1,0,0,0,1]",
        Passes {
            search: 3,
            unrolled: 2,
            joining: 1,
            widening: 0,
        },
    ),
    (
        "[2,2,0,0,0,0,0,1,5,0,0,1,0,1,1,2,1,0,0,2,2,1,1,0,0,0,1]",
        Passes {
            search: 100,
            unrolled: 0,
            joining: 100,
            widening: 2,
        },
    ),
    (
        "[1,5,0,0,1,0,1,0,1,2,1,1,0,0,0,1]",
        Passes {
            search: 100,
            unrolled: 0,
            joining: 100,
            widening: 2,
        },
    ),
];
