//! The stored CRC vectors, made by an outside tool (see the head of the file).

use crate::hex;

const FILE: &str = include_str!("../vectors/crc.txt");

pub struct Vector {
    pub name: &'static str,
    pub bytes: Vec<u8>,
    pub crc: u16,
}

pub fn stored() -> Vec<Vector> {
    FILE.lines()
        .filter(|line| !line.is_empty() && !line.starts_with('#'))
        .map(|line| parse(line).unwrap_or_else(|| panic!("not a vector: {line}")))
        .collect()
}

fn parse(line: &'static str) -> Option<Vector> {
    let words: Vec<&str> = line.split(' ').collect();
    let [name @ ("FCS" | "SAFETY"), bytes, crc] = words[..] else {
        return None;
    };
    let bytes = match bytes {
        "-" => Vec::new(),
        digits => hex::decode(digits.as_bytes())?,
    };
    let crc = u16::from_str_radix(crc, 16).ok()?;
    Some(Vector { name, bytes, crc })
}
