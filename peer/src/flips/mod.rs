//! Bits flipped in good bodies, off the wire (address, data and FCS, stuffed anew) and on it (the
//! stuffed bytes as they stand between their flags): how many are read all the same.

pub mod bodies;
pub mod choice;
pub mod quick;
mod report;
mod row;
pub mod search;
pub mod solve;

pub use bodies::Good;
pub use report::Report;
pub use row::{Place, Read, Row};

use crate::cases::KINDS;
use crate::generate::random::Random;
use crate::stuffing::{ESCAPE, ESCAPE_CODE, FLAG, FLAG_CODE};

/// Up to so many bytes all pairs of bits are flipped, else so many as are drawn.
const ALL_TWOS: usize = 40;
const DRAWN: usize = 2000;

/// No damage makes a body of more bytes on the wire: an address, and all else stuffed.
const ROOM: usize = 543;

/// Bodies of all kinds in turn, each damaged in all ways.
pub fn run(count: usize, seed: u64) -> Report {
    let random = &mut Random::new(seed);
    let mut report = Report::new(seed);
    for place in 0..count {
        let kind = (place % KINDS as usize) as u8;
        let good = bodies::any(random, kind);
        report.bodies += 1;
        off_the_wire(&good, random, &mut report.bytes);
        on_the_wire(&good, random, &mut report.wire);
    }
    report
}

fn off_the_wire(good: &Good, random: &mut Random, rows: &mut [Row; 4]) {
    let [one, two, three, four] = rows;
    let mut plain = good.plain.clone();
    let mut line = [0; ROOM];
    let mut take = |row: &mut Row, damaged: &[u8]| {
        let length = stuff_anew(damaged, &mut line);
        row.take(good, &line[..length]);
    };
    choice::every_one(&mut plain, |damaged| take(one, damaged));
    if plain.len() <= ALL_TWOS {
        choice::every_two(&mut plain, |damaged| take(two, damaged));
    } else {
        choice::some(random, 2, DRAWN, &mut plain, |damaged| take(two, damaged));
    }
    choice::some(random, 3, DRAWN, &mut plain, |damaged| take(three, damaged));
    choice::some(random, 4, DRAWN, &mut plain, |damaged| take(four, damaged));
}

fn on_the_wire(good: &Good, random: &mut Random, rows: &mut [Row; 2]) {
    let [one, two] = rows;
    let mut line = good.line.clone();
    choice::every_one(&mut line, |damaged| one.take(good, damaged));
    if line.len() <= ALL_TWOS {
        choice::every_two(&mut line, |damaged| two.take(good, damaged));
    } else {
        choice::some(random, 2, DRAWN, &mut line, |damaged| {
            two.take(good, damaged)
        });
    }
}

/// The length on the wire of an unstuffed body, which is laid down there without new memory.
pub fn stuff_anew(plain: &[u8], line: &mut [u8; ROOM]) -> usize {
    line[0] = plain[0];
    let mut length = 1;
    for &byte in &plain[1..] {
        let code = match byte {
            FLAG => FLAG_CODE,
            ESCAPE => ESCAPE_CODE,
            other => {
                line[length] = other;
                length += 1;
                continue;
            }
        };
        line[length..length + 2].copy_from_slice(&[ESCAPE, code]);
        length += 2;
    }
    length
}
