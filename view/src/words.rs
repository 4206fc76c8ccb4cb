//! Numbers in words. The answers, the grounds and the registers' names are those of the header for C, so that they are said once.

use std::sync::OnceLock;

const HEADER: &str = include_str!("../../include/saturn.h");

struct Words {
    answers: Vec<(u8, &'static str)>,
    grounds: Vec<(u8, &'static str)>,
    registers: Vec<(usize, &'static str)>,
}

fn words() -> &'static Words {
    static WORDS: OnceLock<Words> = OnceLock::new();
    WORDS.get_or_init(|| Words {
        answers: texts("saturn_answer_text"),
        grounds: texts("saturn_ground_text"),
        registers: HEADER.lines().filter_map(register_line).collect(),
    })
}

/// the cases of a function that gives words: `case SATURN_NAME: return "words";`
fn texts(function: &str) -> Vec<(u8, &'static str)> {
    let body = HEADER.split(function).nth(1).unwrap_or("").split("default:").next().unwrap_or("");
    let case = |line: &'static str| {
        let (name, rest) = line.trim().strip_prefix("case ")?.split_once(": return \"")?;
        Some((value(name)? as u8, rest.strip_suffix("\";")?))
    };
    body.lines().filter_map(case).collect()
}

/// the value of a name in the header: `NAME = 12,` or `NAME = 0x1C,`
fn value(name: &str) -> Option<usize> {
    HEADER.lines().find_map(|line| {
        let rest = line.trim().strip_prefix(name)?.trim_start().strip_prefix('=')?.trim_start();
        let digits: &str = rest.split(|c: char| !c.is_ascii_alphanumeric()).next()?;
        match digits.strip_prefix("0x") {
            Some(hex) => usize::from_str_radix(hex, 16).ok(),
            None => digits.parse().ok(),
        }
    })
}

/// `SATURN_REG_NAME = 0x18, ...`
fn register_line(line: &'static str) -> Option<(usize, &'static str)> {
    let name = line.trim().strip_prefix("SATURN_REG_")?.split(' ').next()?;
    Some((value(&format!("SATURN_REG_{name}"))?, name))
}

pub fn answer(number: u8) -> &'static str {
    found(&words().answers, number).unwrap_or("not an answer")
}

pub fn ground(number: u8) -> &'static str {
    found(&words().grounds, number).unwrap_or("not a ground")
}

fn found(all: &[(u8, &'static str)], number: u8) -> Option<&'static str> {
    all.iter().find(|(n, _)| *n == number).map(|(_, text)| *text)
}

/// The register that has its first byte at this address: its name and how many bytes it has. None for outputs, inputs, and
/// addresses without a name.
pub fn register(at: usize) -> Option<(&'static str, usize)> {
    let (_, name) = words().registers.iter().find(|(first, _)| *first == at && at < 0x80)?;
    let length = match *name {
        "MAC" | "IID" => 8,
        "SID" => 3,
        "VER" => 2,
        _ => 1,
    };
    Some((name, length))
}

/// The name that a frame's field `at` stands for, which may lie inside a number or an image.
pub fn place(at: usize) -> String {
    match at {
        0x80..=0xBF => return "outputs".into(),
        0xC0..=0xFF => return "inputs".into(),
        _ => {}
    }
    let covers = |first: &usize| register(*first).is_some_and(|(_, length)| (*first..*first + length).contains(&at));
    match (0..=at).rev().find(covers).and_then(register) {
        Some((name, _)) => name.into(),
        None => format!("register {at:02X}h"),
    }
}

/// A kind of frame as saturn-frame names it, in words.
pub fn kind(kind: &str) -> &'static str {
    match kind {
        "sync" => "sync",
        "read" => "read request",
        "write" => "write request",
        "plain-read" => "non-safe read request",
        "plain-write" => "non-safe write request",
        "response" => "response",
        "plain-sync-response" => "non-safe response to a sync",
        "plain-response" => "non-safe response",
        "tid" => "TID assignment",
        "sid" => "SID assignment",
        "sid4" => "SID assignment, SIL4 form",
        "ack" => "acknowledgement",
        "invariants" => "invariants",
        _ => "not a frame",
    }
}

/// 1234567 as 1,234,567
pub fn grouped(n: u64) -> String {
    let digits = n.to_string();
    let mut grouped = String::new();
    for (i, digit) in digits.chars().enumerate() {
        if i > 0 && (digits.len() - i) % 3 == 0 {
            grouped.push(',');
        }
        grouped.push(digit);
    }
    grouped
}

/// `1 line`, `2 lines`
pub fn count(n: u64, one: &str, several: &str) -> String {
    format!("{} {}", grouped(n), if n == 1 { one } else { several })
}

#[cfg(test)]
mod tests {
    use super::*;

    #[test]
    fn the_header_has_all_words() {
        assert_eq!(words().answers.iter().map(|(n, _)| *n).collect::<Vec<_>>(), (0..=22).collect::<Vec<u8>>());
        assert_eq!(words().grounds.iter().map(|(n, _)| *n).collect::<Vec<_>>(), (0..=5).collect::<Vec<u8>>());
        assert_eq!(answer(10), "source not the one demanded");
        assert_eq!(ground(1), "sync silence");
        assert_eq!(register(0x18), Some(("TCYC", 1)));
        assert_eq!((register(0x15), register(0x27), register(0x80)), (None, None, None));
    }

    #[test]
    fn places() {
        assert_eq!(place(0x17), "OUT_REP");
        assert_eq!(place(0x15), "SID");
        assert_eq!(place(0x27), "register 27h");
        assert_eq!(place(0xBF), "outputs");
    }

    #[test]
    fn numbers_in_groups() {
        assert_eq!((grouped(0), grouped(999), grouped(1_000_000)), ("0".into(), "999".into(), "1,000,000".into()));
    }
}
