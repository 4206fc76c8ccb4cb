//! Inputs that are too long: they go on without end, stay open after the byte that decides, or are very large.

use crate::incident;
use crate::million::After;
use crate::which::{BYTES_MAX, LINES_MAX};

pub struct Case {
    pub name: &'static str,
    pub script: fn() -> Vec<u8>,
    /// What is given again and again behind it, if that is wanted.
    again: &'static [u8],
    pub after: After,
}

/// In bytes.
const VERY_LONG: usize = 20_000_000;

/// So many bytes more are given to a program that must have ended.
const TOO_MANY: usize = 5_000_000;

pub const CASES: [Case; 12] = [
    without_end("bytes without LF, without end", b"x", Vec::new),
    without_end("empty lines without end", b"\n", Vec::new),
    without_end("ticks without end", b"T 1\n", Vec::new),
    without_end("an incident and NULs without end", b"\0", incident),
    without_end("60,001 bytes, and lines without end", b"1 00\n", || {
        b"x".repeat(BYTES_MAX + 1)
    }),
    open("60,001 bytes without LF, and the input stays open", || {
        b"x".repeat(BYTES_MAX + 1)
    }),
    open("60,001 LFs, and the input stays open", || {
        b"\n".repeat(BYTES_MAX + 1)
    }),
    open(
        "60,001 bytes, the last an LF, and the input stays open",
        || [b"x".repeat(BYTES_MAX), b"\n".to_vec()].concat(),
    ),
    open(
        "an incident of 60,001 bytes, and the input stays open",
        || incident::edge("bytes-60001-lines-200").expect("a named incident"),
    ),
    ended("20 MB without LF", || b"1".repeat(VERY_LONG)),
    ended("20 MB of short lines", || b"T 1\n".repeat(VERY_LONG / 4)),
    ended(
        "20 MB behind an incident of as many lines as are read",
        || {
            let lines = incident::edge("lines-200").expect("a named incident");
            assert_eq!(
                lines.iter().filter(|&&byte| byte == b'\n').count(),
                LINES_MAX
            );
            [lines, b"\xFF".repeat(VERY_LONG)].concat()
        },
    ),
];

const fn without_end(name: &'static str, again: &'static [u8], script: fn() -> Vec<u8>) -> Case {
    Case {
        name,
        script,
        again,
        after: After::Lines,
    }
}

const fn open(name: &'static str, script: fn() -> Vec<u8>) -> Case {
    Case {
        name,
        script,
        again: b"",
        after: After::Nothing,
    }
}

const fn ended(name: &'static str, script: fn() -> Vec<u8>) -> Case {
    Case {
        name,
        script,
        again: b"",
        after: After::End,
    }
}

fn incident() -> Vec<u8> {
    incident::edge("sync-at-limit").expect("a named incident")
}

/// What is given to a program that must have ended.
pub fn further(case: &Case) -> Vec<u8> {
    match case.again {
        b"" => Vec::new(),
        again => again.repeat(TOO_MANY / again.len()),
    }
}
