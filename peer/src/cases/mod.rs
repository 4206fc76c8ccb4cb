//! The case programs: each line of hex digits is one case and gets one line of answer.

mod body;
mod crc;
mod frame;
mod kinds;

pub use kinds::{fields_of, fields_width, KINDS};

use crate::hex;
use crate::refusal::Refusal;

pub const LINE_MAX: usize = 1200;
pub const ROOM_MAX: usize = 600;

#[derive(Clone, Copy, Debug, PartialEq, Eq)]
pub enum Program {
    Crc,
    Body,
    Frame,
}

impl Program {
    pub fn named(name: &str) -> Option<Program> {
        match name {
            "crc" => Some(Program::Crc),
            "body" => Some(Program::Body),
            "frame" => Some(Program::Frame),
            _ => None,
        }
    }
}

pub fn answer(program: Program, input: &[u8]) -> String {
    lines(input)
        .map(|line| answer_line(program, line) + "\n")
        .collect()
}

/// Lines end with LF alone. A last line without LF is a line; no line follows a final LF.
fn lines(input: &[u8]) -> impl Iterator<Item = &[u8]> {
    input
        .split_inclusive(|&byte| byte == b'\n')
        .map(|line| line.strip_suffix(b"\n").unwrap_or(line))
}

fn answer_line(program: Program, line: &[u8]) -> String {
    case_of(line)
        .and_then(|case| match program {
            Program::Crc => crc::answer(&case),
            Program::Body => body::answer(&case),
            Program::Frame => frame::answer(&case),
        })
        .map_or("BAD".to_string(), |bytes| hex::encode(&bytes))
}

fn case_of(line: &[u8]) -> Option<Vec<u8>> {
    if line.is_empty() || line.len() > LINE_MAX {
        return None;
    }
    hex::decode(line)
}

/// A buffer to write into: byte i is i modulo 251. `None` if it would be larger than allowed.
fn buffer(room: u16) -> Option<Vec<u8>> {
    let room = room as usize;
    (room <= ROOM_MAX).then(|| (0..room).map(|i| (i % 251) as u8).collect())
}

/// The number, the length on the line and the whole buffer.
fn written(outcome: Result<usize, Refusal>, buffer: &[u8]) -> Vec<u8> {
    let (number, length) = match outcome {
        Ok(length) => (0, length as u16),
        Err(refusal) => (refusal.number(), 0),
    };
    let mut answer = vec![number];
    answer.extend(length.to_be_bytes());
    answer.extend(buffer);
    answer
}
