//! Cases for the CRCs: the stored vectors, every single byte, every length to 300.

use super::random::Random;
use super::{bad, line, sample};
use crate::vectors::{self, Vector};

pub fn fixed(random: &mut Random) -> Vec<String> {
    let mut lines: Vec<String> = vectors::stored()
        .iter()
        .map(|Vector { name, bytes, .. }| line::crc(operation(name), bytes))
        .collect();
    for length in 0..=300 {
        for operation in [0, 1] {
            lines.push(line::crc(operation, &sample::bytes(random, length)));
        }
    }
    for byte in 0..=0xFF {
        for operation in [0, 1] {
            lines.push(line::crc(operation, &[byte]));
        }
    }
    for length in [301, 400, 598, 599] {
        for operation in [0, 1] {
            lines.push(line::crc(operation, &sample::bytes(random, length)));
        }
    }
    lines.extend(bad::crc());
    lines
}

fn operation(name: &str) -> u8 {
    match name {
        "FCS" => 0,
        _ => 1,
    }
}

pub fn any(random: &mut Random) -> String {
    let operation = random.below(2) as u8;
    let length = sample::length(random, 300);
    line::crc(operation, &sample::bytes(random, length))
}
