//! Bytes as pairs of hex digits: either case is read, capitals are written.

use std::fmt::Write;

/// `None` for any other character and for an odd count of digits.
pub fn decode(text: &[u8]) -> Option<Vec<u8>> {
    if text.len() % 2 == 1 {
        return None;
    }
    text.chunks(2)
        .map(|pair| Some(digit(pair[0])? << 4 | digit(pair[1])?))
        .collect()
}

fn digit(character: u8) -> Option<u8> {
    (character as char).to_digit(16).map(|value| value as u8)
}

pub fn encode(bytes: &[u8]) -> String {
    let mut text = String::new();
    for byte in bytes {
        write!(text, "{byte:02X}").expect("a string takes any text");
    }
    text
}
