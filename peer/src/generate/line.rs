//! Case lines as text: an operation, what it needs, all in hex.

use super::random::Random;
use super::sample::Sample;
use crate::body;
use crate::cases;
use crate::frame;
use crate::hex;

pub fn crc(operation: u8, bytes: &[u8]) -> String {
    hex::encode(&[operation]) + &hex::encode(bytes)
}

pub fn read(received: &[u8]) -> String {
    hex::encode(&[0]) + &hex::encode(received)
}

pub fn lay(room: usize, address: u8, application: &[u8]) -> String {
    start(room, &[address]) + &hex::encode(application)
}

pub fn write(room: usize, sample: &Sample) -> String {
    let (kind, fields) = cases::fields_of(&sample.frame);
    start(room, &[sample.address, kind]) + &hex::encode(&fields) + &hex::encode(&sample.data)
}

/// The beginning of a line for laying down or writing.
pub fn start(room: usize, then: &[u8]) -> String {
    hex::encode(&[1]) + &hex::encode(&(room as u16).to_be_bytes()) + &hex::encode(then)
}

/// The length on the line, flags included, whether it may be laid down or not.
pub fn length_laid(address: u8, application: &[u8]) -> usize {
    body::enclose(address, application).len() + 2
}

pub fn length_written(sample: &Sample) -> usize {
    let content = frame::content(&sample.frame, &sample.data);
    length_laid(sample.address, &frame::seal(content))
}

/// A room at or near the exact one, or any.
pub fn some_room(random: &mut Random, exact: usize) -> usize {
    let room = match random.below(12) {
        0..=4 => exact,
        5 | 6 => exact + 1,
        7 | 8 => exact - 1,
        9 => exact + random.below(12),
        10 => random.below(exact + 1),
        _ => random.below(cases::ROOM_MAX + 1),
    };
    room.min(cases::ROOM_MAX)
}

/// Now and then the line with some or all digits in small letters.
pub fn recase(random: &mut Random, line: String) -> String {
    match random.below(12) {
        0 => line.to_lowercase(),
        1 => line
            .chars()
            .map(|digit| match random.one_in(2) {
                true => digit.to_ascii_lowercase(),
                false => digit,
            })
            .collect(),
        _ => line,
    }
}
