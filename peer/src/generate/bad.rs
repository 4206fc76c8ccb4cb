//! Lines that no case program reads, beside some that look like them and are read.

use super::line;
use crate::cases::{fields_width, KINDS};
use crate::hex;

const ODD: [&str; 6] = ["0", "1", "000", "012", "00020", "0102580"];

const NO_HEX: [&str; 25] = [
    "0G", "G0", "0g", "00 00", " 00", "00 ", "00\t", "00\r", "\r", "00-0", "+0", "0x00", "00,00",
    "00h", "é0", "00é", "0é", "00٠0", "BAD", "#", "@@", "``", "//", "::", "/0",
];

const NO_OPERATION: [&str; 10] = [
    "02", "03", "10", "7F", "80", "FE", "FF", "ff", "02000000", "FF000000",
];

/// For every program: an empty line, the lines above, and lines at the limit of length and
/// beyond. Of the long ones those of 1,200 digits are not too long.
fn everywhere() -> Vec<String> {
    let mut lines = vec![String::new()];
    lines.extend(ODD.map(String::from));
    lines.extend(NO_HEX.map(String::from));
    lines.extend(NO_OPERATION.map(String::from));
    for digits in [1199, 1200, 1201, 1202, 1210] {
        lines.push(long("00", digits));
        lines.push(long("01", digits));
        lines.push(long("010258FF05", digits));
    }
    lines.push(long("00", 1199) + "G");
    lines.push(long("00", 1198) + "0G");
    lines
}

/// A line of that many digits.
fn long(start: &str, digits: usize) -> String {
    start
        .chars()
        .chain("7A".chars().cycle())
        .take(digits)
        .collect()
}

pub fn crc() -> Vec<String> {
    everywhere()
}

pub fn body() -> Vec<String> {
    let mut lines = everywhere();
    lines.extend(
        [
            "01",
            "0100",
            "010000",
            "01000F",
            "010010FF",
            "0102580101020304",
        ]
        .map(String::from),
    );
    lines.extend(rooms(&[0x01, 0x11, 0x22, 0x33, 0x44]));
    lines
}

pub fn frame() -> Vec<String> {
    let mut lines = everywhere();
    lines.extend(["01", "0100", "010000", "010000FF", "010000FF00"].map(String::from));
    lines.extend(rooms(&[0x01, 0x03, 0x11, 0x22, 0x33]));
    for kind in [KINDS, KINDS + 1, 0x10, 0x7E, 0xFE, 0xFF] {
        lines.push(line::start(100, &[0x01, kind]) + &hex::encode(&[0; 40]));
    }
    for kind in 0..KINDS {
        let width = fields_width(kind).expect("a kind of the table");
        for present in [0, 1, width - 1, width] {
            lines.push(line::start(60, &[0xFF, kind]) + &hex::encode(&vec![0x02; present]));
        }
    }
    lines
}

/// The same case with rooms up to the limit and above it.
fn rooms(case: &[u8]) -> Vec<String> {
    [599, 600, 601, 602, 0x02FF, 0x1258, 0x8000, 0xFFFF]
        .map(|room| line::start(room, case))
        .to_vec()
}
