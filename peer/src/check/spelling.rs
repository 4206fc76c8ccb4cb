//! The frame program: its grammar, its complaints, and every kind there and back.

use super::Tally;
use crate::cases::KINDS;
use crate::generate::random::Random;
use crate::generate::sample;
use crate::spelling::{self, spell_frame};

/// Lines and what they print, one after another in one input.
const LINES: [(&str, &str); 28] = [
    (" ", "1 BAD: no such kind"),
    ("Sync", "2 BAD: no such kind"),
    ("sync", "3 BAD: src= wants 6 hex digits"),
    ("sync ", "4 BAD: src= wants 6 hex digits"),
    ("sync src=11EE11", "5 BAD: cyc= wants 2 hex digits"),
    ("sync src=11ee11 cyc=05", "FF0011EE1105750BCED5"),
    (
        "sync src=11EE11 cyc=05 ",
        "7 BAD: more behind the last field",
    ),
    (
        "sync src=11EE11 cyc=05 x",
        "8 BAD: more behind the last field",
    ),
    ("sync src=11EE1 cyc=05", "9 BAD: src= wants 6 hex digits"),
    ("sync src=11EE1G cyc=05", "10 BAD: src= wants 6 hex digits"),
    ("sync  src=11EE11 cyc=05", "11 BAD: src= wants 6 hex digits"),
    ("sync cyc=05 src=11EE11", "12 BAD: src= wants 6 hex digits"),
    ("body", "13 BAD: body wants pairs of hex digits"),
    ("body ", "refused 1: body not 7 to 543 bytes"),
    ("body 0", "15 BAD: body wants pairs of hex digits"),
    ("body 00 ", "16 BAD: body wants pairs of hex digits"),
    ("body FF0011EE1105750BCED5", "sync src=11EE11 cyc=05"),
    ("body ff0011ee1105750bced4", "refused 4: FCS"),
    ("body FF0011EE11057E0BCED5", "refused 2: stuffing"),
    (
        "plain-write to=21 src=F0 at=80",
        "20 BAD: data= wants pairs of hex digits",
    ),
    (
        "plain-write to=21 src=F0 at=80 data=0",
        "21 BAD: data= wants pairs of hex digits",
    ),
    (
        "plain-write to=21 src=F0 at=80 data=0 0",
        "22 BAD: data= wants pairs of hex digits",
    ),
    (
        "plain-write to=21 src=F0 at=80 data=00 0",
        "23 BAD: more behind the last field",
    ),
    (
        "plain-write to=00 src=F0 at=80 data=",
        "refused 5: reserved address",
    ),
    (
        "plain-response to=21 src=05 com=01 at=80 data=",
        "refused 8: length, COM or sync address wrong for the TYP",
    ),
    ("sid4 to=21", "26 BAD: src= wants 6 hex digits"),
    (
        "invariants to=21 dest=000001 src=000002 cyc=01 seq=01 config=123",
        "27 BAD: config= wants 4 hex digits",
    ),
    (
        "sync src=11EE11 cyc=05\r",
        "28 BAD: cyc= wants 2 hex digits",
    ),
];

/// The end of the grammar, after the kinds.
const CLOSING: [&str; 4] = [
    "body xx...",
    "P FRAME: a port digit, a space and any line above",
    "P xx..., T ..., I ...: printed unchanged",
    "# ...: nothing is printed",
];

pub fn run(tally: &mut Tally) {
    lines(tally);
    long_lines(tally);
    grammar(tally);
    let random = &mut Random::new(8);
    for kind in 0..KINDS {
        for datl in [0, 1, 7, 30, 253, 254] {
            there_and_back(tally, random, kind, datl);
        }
    }
}

pub fn output(input: &str) -> String {
    let mut output = Vec::new();
    spelling::run(input.as_bytes(), &mut output).expect("memory takes any text");
    String::from_utf8(output).expect("text")
}

fn lines(tally: &mut Tally) {
    check_lines(tally, &LINES);
}

/// The lines make one input. A line that prints nothing has nothing beside it.
pub fn check_lines(tally: &mut Tally, lines: &[(&str, &str)]) {
    let input: Vec<&str> = lines.iter().map(|(line, _)| *line).collect();
    let given = output(&(input.join("\n") + "\n"));
    let printing: Vec<_> = lines
        .iter()
        .filter(|(_, wanted)| !wanted.is_empty())
        .collect();
    // A CR at the end of a line belongs to it.
    let given: Vec<&str> = given.split_terminator('\n').collect();
    let as_many = given.len() == printing.len();
    tally.check(as_many, "as many lines as are wanted");
    for ((line, wanted), given) in printing.into_iter().zip(given) {
        tally.check(given == *wanted, &format!("the frame line {line:?}"));
    }
}

fn long_lines(tally: &mut Tally) {
    for (characters, wanted) in [
        (1199, "refused 1: body not 7 to 543 bytes\n"),
        (1200, "1 BAD: body wants pairs of hex digits\n"),
        (1201, "1 BAD: over 1,200 characters\n"),
    ] {
        let line = format!("body {}", "0".repeat(characters - 5));
        tally.check(output(&line) == wanted, "a frame line at the limit");
    }
    // 255 data bytes are the most; more are refused with 8, unlike a line that is too long.
    let write = |bytes| format!("plain-write to=21 src=F0 at=80 data={}", "00".repeat(bytes));
    tally.check(!output(&write(255)).contains("refused"), "255 data bytes");
    let refused = "refused 8: length, COM or sync address wrong for the TYP\n";
    tally.check(output(&write(256)) == refused, "256 data bytes");
}

fn grammar(tally: &mut Tally) {
    let grammar = output("");
    let lines: Vec<&str> = grammar.lines().collect();
    tally.check(lines.len() == 17, "the grammar's lines");
    tally.check(lines[0] == "sync src=xxxxxx cyc=xx", "its first line");
    tally.check(
        lines[4] == "plain-write to=xx src=xx at=xx data=xx...",
        "its line with data",
    );
    tally.check(lines[13..] == CLOSING, "its closing lines");
}

/// The line of a frame, its body, and the same line again.
fn there_and_back(tally: &mut Tally, random: &mut Random, kind: u8, datl: u8) {
    let sample = sample::frame(random, kind, datl);
    let line = spell_frame(sample.address, &sample.frame, &sample.data);
    let body = output(&line);
    let back = output(&format!("body {body}"));
    let what = format!("kind {kind:02X} by its fields, DATL {datl}");
    tally.check(back.trim_end() == line, &what);
}
