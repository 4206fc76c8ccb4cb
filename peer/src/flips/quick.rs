//! A short way to the number that the reader of bodies gives: one pass with a table, no memory.
//! It is no second reader: the reader itself is asked about all that are read, and about a sample.

use crate::body::{reserved, RECEIVED, UNSTUFFED};
use crate::crc::FCS;
use crate::stuffing::{ESCAPE, ESCAPE_CODE, FLAG, FLAG_CODE};

const START: u16 = 0xFFFF;
static TABLE: [u16; 256] = table();

/// 1 to 5, or 0 for a body that is read. The FCS over a body with its right FCS is 0.
pub fn number(line: &[u8]) -> u8 {
    if !RECEIVED.contains(&line.len()) {
        return 1;
    }
    let mut register = step(START, line[0]);
    let mut length = 1;
    let mut bytes = line[1..].iter();
    while let Some(&byte) = bytes.next() {
        let plain = match byte {
            FLAG => return 2,
            ESCAPE => match bytes.next() {
                Some(&FLAG_CODE) => FLAG,
                Some(&ESCAPE_CODE) => ESCAPE,
                _ => return 2,
            },
            other => other,
        };
        register = step(register, plain);
        length += 1;
    }
    match (UNSTUFFED.contains(&length), register, reserved(line[0])) {
        (false, _, _) => 3,
        (true, 1.., _) => 4,
        (true, 0, true) => 5,
        (true, 0, false) => 0,
    }
}

fn step(register: u16, byte: u8) -> u16 {
    register << 8 ^ TABLE[(register >> 8) as usize ^ byte as usize]
}

const fn table() -> [u16; 256] {
    let mut table = [0; 256];
    let mut place = 0;
    while place < 256 {
        let mut register = (place as u16) << 8;
        let mut left = 8;
        while left > 0 {
            let leaving = register >> 15;
            register = register << 1 ^ leaving * FCS;
            left -= 1;
        }
        table[place] = register;
        place += 1;
    }
    table
}
