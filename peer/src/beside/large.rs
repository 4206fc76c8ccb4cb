//! Journeys about the millionth line, and others that are too large to store.

use crate::journey;
use crate::million::After;
use crate::worst::{LINES_MAX, STRETCH};

pub struct Case {
    pub name: &'static str,
    /// Made from a journey of a million lines.
    pub journey: fn(&[u8]) -> Vec<u8>,
    pub after: After,
}

const SEED: u64 = 18;

/// In bytes.
const VERY_LONG: usize = 20_000_000;

/// So many lines more are given to a program that must have ended.
const TOO_MANY: usize = 1_000_000;

pub const CASES: [Case; 25] = [
    ended("a million lines", |million| million.to_vec()),
    ended("a million lines and one", |million| add(million, b"1\n")),
    ended("a million lines, the last without LF", |million| {
        cut(million, 1).to_vec()
    }),
    ended("a million lines and one, the last without LF", |million| {
        add(million, b"1")
    }),
    ended("a million lines and an empty one", |million| {
        add(million, b"\n")
    }),
    ended("999,999 lines", |million| but_last(million).to_vec()),
    ended("BAD at the millionth", |million| {
        add(but_last(million), b"256\n")
    }),
    ended("BAD at the millionth, without LF", |million| {
        add(but_last(million), b"256")
    }),
    ended("an empty millionth line", |million| {
        add(but_last(million), b"\n")
    }),
    ended("BAD at the million-and-first", |million| {
        add(million, b"256\n")
    }),
    ended("BAD at the millionth, and a further line", |million| {
        add(but_last(million), b"256\n1\n")
    }),
    ended("BAD at line 70,000 and at the millionth", |_| {
        [
            b"1\n".repeat(69_999),
            b"x\n".to_vec(),
            b"1\n".repeat(930_000),
            b"x\n".to_vec(),
        ]
        .concat()
    }),
    ended("the largest sum at the last stretch of a million", |_| {
        ones_then(LINES_MAX - STRETCH, b"2\n", STRETCH)
    }),
    ended("the largest sum at stretch 65,537", |_| {
        [ones_then(65_536, b"2\n", STRETCH), b"1\n".repeat(5_000)].concat()
    }),
    ended("a million lines of 255", |_| b"255\n".repeat(LINES_MAX)),
    ended("a million lines of 0", |_| b"0\n".repeat(LINES_MAX)),
    ended("a million lines that grow", |_| {
        journey::text(
            &(0..LINES_MAX)
                .map(|place| (place / 3_922) as u8)
                .collect::<Vec<u8>>(),
        )
    }),
    ended("a line of 65,537 digits", |_| {
        [b"7\n1", &b"0".repeat(65_536)[..], b"\n7\n"].concat()
    }),
    ended("20 MB of one digit, without LF", |_| b"1".repeat(VERY_LONG)),
    ended(
        "20 MB of one digit after 2,000 lines, then more lines",
        |_| {
            [
                b"1\n".repeat(2_000),
                b"1".repeat(VERY_LONG),
                b"\n1\n".to_vec(),
            ]
            .concat()
        },
    ),
    Case {
        name: "lines without end after the millionth",
        journey: |million| million.to_vec(),
        after: After::Lines,
    },
    Case {
        name: "a million lines and one, and the input stays open",
        journey: |million| add(million, b"1\n"),
        after: After::Nothing,
    },
    Case {
        name: "BAD at line 3, and the input stays open",
        journey: |_| b"1\n1\nx\n".to_vec(),
        after: After::Nothing,
    },
    Case {
        name: "BAD at line 3, and lines without end",
        journey: |_| b"1\n1\nx\n".to_vec(),
        after: After::Lines,
    },
    Case {
        name: "BAD at line 1,500, and the input stays open",
        journey: |_| [b"1\n".repeat(1_499), b"\n".to_vec()].concat(),
        after: After::Nothing,
    },
];

const fn ended(name: &'static str, journey: fn(&[u8]) -> Vec<u8>) -> Case {
    Case {
        name,
        journey,
        after: After::End,
    }
}

pub fn million() -> Vec<u8> {
    journey::journey(SEED, LINES_MAX)
}

/// What is given to a program that must have ended.
pub fn further(after: After) -> Vec<u8> {
    match after {
        After::Lines => b"255\n".repeat(TOO_MANY),
        After::End | After::Nothing => Vec::new(),
    }
}

fn add(journey: &[u8], more: &[u8]) -> Vec<u8> {
    [journey, more].concat()
}

fn cut(journey: &[u8], bytes: usize) -> &[u8] {
    &journey[..journey.len() - bytes]
}

/// Without its last line.
fn but_last(journey: &[u8]) -> &[u8] {
    let last = journey.split_inclusive(|&byte| byte == b'\n').next_back();
    cut(journey, last.map_or(0, <[u8]>::len))
}

fn ones_then(ones: usize, line: &[u8], times: usize) -> Vec<u8> {
    [b"1\n".repeat(ones), line.repeat(times)].concat()
}
