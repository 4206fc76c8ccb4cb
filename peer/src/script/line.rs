//! The three forms of a script line.

use crate::hex;

/// Characters of a line, its LF not counted.
pub const LINE_MAX: usize = 1200;

pub const TICKS_MAX: u32 = 60_000;

const INPUT_DIGITS: usize = 128;

#[derive(Clone, Debug, PartialEq, Eq)]
pub enum Line {
    /// So many ticks, with the inputs held.
    Ticks(u32),
    Frame {
        port: u8,
        body: Vec<u8>,
    },
    /// One tick, with these inputs.
    Inputs(Vec<u8>),
}

/// `None` for a BAD line.
pub fn parse(line: &[u8]) -> Option<Line> {
    if line.len() > LINE_MAX {
        return None;
    }
    match line {
        [b'T', b' ', digits @ ..] => ticks(digits).map(Line::Ticks),
        [b'I', b' ', digits @ ..] => inputs(digits).map(Line::Inputs),
        [port @ b'0'..=b'9', b' ', digits @ ..] => Some(Line::Frame {
            port: port - b'0',
            body: hex::decode(digits)?,
        }),
        _ => None,
    }
}

/// 1 to 60000, without a sign or a leading zero.
fn ticks(digits: &[u8]) -> Option<u32> {
    let plain = digits.iter().all(u8::is_ascii_digit);
    if !plain || digits.len() > 5 || digits.first() == Some(&b'0') {
        return None;
    }
    let count = std::str::from_utf8(digits).ok()?.parse().ok()?;
    (1..=TICKS_MAX).contains(&count).then_some(count)
}

fn inputs(digits: &[u8]) -> Option<Vec<u8>> {
    match digits.len() {
        INPUT_DIGITS => hex::decode(digits),
        _ => None,
    }
}
