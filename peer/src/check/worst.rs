//! The journey program: what the documents say of it, sentence by sentence, with numbers worked out by hand.

use super::running::RIGHT;
use super::Tally;
use crate::fuzz::worst_thousand;
use crate::journey;
use crate::worst::{self, Forms, LINES_MAX};
use std::io::{self, Read};

/// Named journeys whose answers are easily worked out. Those named bad-at-N, with a number N, and line-... are not among them:
/// see `numbers_in_names`.
const BY_HAND: [(&str, &str); 48] = [
    // 1,000 ones stand at lines 201 and 1,501; at 2, 1,003 and 2,004.
    ("tie-two-apart", "1000 201"),
    ("tie-three-apart", "1000 2"),
    ("tie-two-overlapping", "4000 151"),
    ("tie-three-overlapping", "4000 151"),
    ("tie-two-overlapping-one-apart", "1000 8"),
    ("tie-first-and-last", "1000 1"),
    // Line 1,101 has 9. The first stretch that has it is 102 to 1,101.
    ("tie-of-single-counts", "9 102"),
    ("lesser-before", "1000 1400"),
    ("lesser-after", "1000 11"),
    ("all-equal", "7000 1"),
    ("all-0", "0 1"),
    ("all-255", "255000 1"),
    ("largest-first", "255 1"),
    ("largest-last", "255 501"),
    ("largest-second", "1000 2"),
    ("largest-last-but-one", "1000 100"),
    ("largest-at-1001", "2000 1001"),
    ("largest-across-blocks", "5000 701"),
    // 500 times 255, wherever it starts.
    ("only-0-and-255", "127500 1"),
    // Three times 0 to 255, which is 32,640, and 24 to 255, which is 232 times 139.5.
    ("every-count", "130284 25"),
    ("lines-1", "SHORT"),
    ("lines-999", "SHORT"),
    ("lines-1000", "199617 1"),
    ("lines-1001-first", "1008 1"),
    ("lines-1001-second", "1008 2"),
    ("lines-1001-equal", "1008 1"),
    ("lines-1999", "1999 1000"),
    ("lines-2000", "2000 1001"),
    ("lines-2001", "2000 1001"),
    ("large-leaves", "250 1"),
    ("large-leaves-later", "250 601"),
    ("bad-at-last", "1200 BAD"),
    ("bad-at-last-of-1000", "1000 BAD"),
    ("bad-twice", "600 BAD"),
    ("bad-twice-early", "2 BAD"),
    ("bad-in-short", "3 BAD"),
    ("bad-makes-short", "10 BAD"),
    ("empty-line-in-the-middle", "700 BAD"),
    ("empty", "SHORT"),
    ("lf-alone", "1 BAD"),
    ("empty-line-at-end", "1001 BAD"),
    ("no-lf-1", "SHORT"),
    ("no-lf-999", "SHORT"),
    ("no-lf-1000", "1008 1"),
    ("no-lf-1001", "9 2"),
    ("no-lf-bad", "1000 BAD"),
    ("cr-lf", "1 BAD"),
    ("cr-at-last", "1100 BAD"),
];

pub fn run(tally: &mut Tally) {
    for (name, answer) in BY_HAND {
        let journey = journey::edge(name).unwrap_or_default();
        let right = worst_thousand(&journey) == format!("{answer}\n").into_bytes();
        tally.check(right, &format!("journey {name}"));
    }
    numbers_in_names(tally);
    every_short_line(tally);
    every_number(tally);
    the_millionth(tally);
    nothing_is_waited_for(tally);
}

/// bad-at-N is BAD at line N, line-... at line 2.
fn numbers_in_names(tally: &mut Tally) {
    for edge in journey::edges() {
        let number = match edge.name.strip_prefix("bad-at-") {
            Some(number) => number.parse().ok(),
            None => edge.name.starts_with("line-").then_some(2),
        };
        if let Some(number) = number {
            let right = worst_thousand(&edge.journey) == format!("{number} BAD\n").into_bytes();
            tally.check(right, &format!("journey {}", edge.name));
        }
    }
}

/// All lines of up to two bytes, by another test of their form.
fn every_short_line(tally: &mut Tally) {
    let forms = Forms::new();
    let same = |line: &[u8]| forms.count(line).map(u64::from) == (RIGHT.count)(line);
    for first in 0..=255 {
        let two = (0..=255).all(|second| same(&[first, second]));
        let what = format!("lines that start with {first:02X}h");
        tally.check(same(&[first]) && two, &what);
    }
    tally.check(same(b""), "a line without characters");
}

/// Written with up to two zeros before it, and with a fourth digit.
fn every_number(tally: &mut Tally) {
    let forms = Forms::new();
    for number in 0..=1_000u32 {
        let count = u8::try_from(number).ok();
        let plain = forms.count(number.to_string().as_bytes()) == count;
        let others = [
            format!("0{number}"),
            format!("00{number}"),
            format!("{number}000"),
        ];
        let none = others
            .iter()
            .all(|line| forms.count(line.as_bytes()).is_none());
        tally.check(plain && none, &format!("a line of {number}"));
    }
}

/// A line past the millionth is LONG whatever it holds, unless an earlier one is BAD.
fn the_millionth(tally: &mut Tally) {
    let [million, fewer] = [LINES_MAX, LINES_MAX - 1].map(|lines| b"2\n".repeat(lines));
    for (lines, rest, answer) in [
        (&million, "", "2000 1"),
        (&million, "2", "LONG"),
        (&million, "\n", "LONG"),
        (&million, "256\n", "LONG"),
        (&million, "\0", "LONG"),
        (&fewer, "", "2000 1"),
        (&fewer, "3", "2001 999001"),
        (&fewer, "256", "1000000 BAD"),
        (&fewer, "\n", "1000000 BAD"),
        (&fewer, "\n2\n", "1000000 BAD"),
    ] {
        let printed = worst_thousand(&[lines, rest.as_bytes()].concat());
        let what = format!("{rest:?} after {} lines of a journey", lines.len() / 2);
        tally.check(printed == format!("{answer}\n").into_bytes(), &what);
    }
}

/// An input that must not be asked for more.
struct Broken;

impl Read for Broken {
    fn read(&mut self, _: &mut [u8]) -> io::Result<usize> {
        Err(io::Error::other("read past the fault"))
    }
}

/// After the first fault nothing is asked for; before it everything is.
fn nothing_is_waited_for(tally: &mut Tally) {
    let long = [&b"2\n".repeat(LINES_MAX)[..], b"2"].concat();
    for (journey, answer) in [
        (&b"x\n"[..], Some("1 BAD\n")),
        (b"1\n\n", Some("2 BAD\n")),
        (b"1\n1\n1000", Some("3 BAD\n")),
        (&long, Some("LONG\n")),
        (&long[..long.len() - 1], None),
        (b"1\n1", None),
        (b"", None),
    ] {
        let mut printed = Vec::new();
        let outcome = worst::run(journey.chain(Broken), &mut printed);
        let right = match answer {
            Some(answer) => outcome.is_ok() && printed == answer.as_bytes(),
            None => outcome.is_err() && printed.is_empty(),
        };
        let what = format!("what is asked for after {} bytes", journey.len());
        tally.check(right, &what);
    }
}
