//! What counts as one printed line for each line of a script.

use super::Tally;
use crate::strike::Printed;

/// What a program could print, of how many lines, and whether it is a header and a line for each.
const SHAPES: [(&str, usize, bool); 14] = [
    ("H\n", 0, true),
    ("H\n1 a\n2 b c\n", 2, true),
    ("H\n1 \n", 1, true),
    ("", 0, false),
    ("H", 0, false),
    ("H\n1 a", 1, false),
    ("H\n1 a\n", 0, false),
    ("H\n1 a\n", 2, false),
    ("H\n1 a\n\n", 1, false),
    ("H\n1 a\n3 b\n", 2, false),
    ("H\n2 a\n1 b\n", 2, false),
    ("H\n01 a\n", 1, false),
    ("H\n1\n", 1, false),
    ("H\n1 a\nended with exit status: 1\n", 1, false),
];

pub fn run(tally: &mut Tally) {
    for (text, count, right) in SHAPES {
        let read = Printed::read(text.as_bytes(), count).is_ok();
        tally.check(read == right, &format!("{text:?} for {count} lines"));
    }
}
