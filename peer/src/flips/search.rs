//! Safe writes that flips on the wire turn into other safe writes, FCS and safety CRC right both
//! times: an escape that is flipped is two bytes, a byte that becomes an escape swallows one.
//!
//! Bytes that both readings end with cannot bring two different CRC registers together. So one
//! flip has to be made good by what stands before it, the head; its data may be anything. Two
//! flips can be made good by what stands between them.

use super::solve;
use crate::body;
use crate::crc::{self, crc};
use crate::frame::{self, com, typ};
use crate::generate::random::Random;
use crate::generate::sample;
use crate::hex;
use std::fmt;

/// Application data without safety CRC, as sent and as read after the flips.
type Contents = [Vec<u8>; 2];

pub struct Pair {
    pub flips: u32,
    pub before: Vec<u8>,
    pub after: Vec<u8>,
}

/// One flip and two flips; `None` where there is no solution.
pub fn pairs(seed: u64) -> [Option<Pair>; 2] {
    let random = &mut Random::new(seed);
    [one_flip(random), two_flips(random)]
}

/// DATL 7Eh is sent as 7Dh 5Eh; 7Fh 5Eh is DATL 7Fh and ADD 5Eh, and ADD is one more data byte.
/// Unknown are DEST, SRC, CYC and SEQ.
fn one_flip(random: &mut Random) -> Option<Pair> {
    let address = sample::free_address(random);
    let rest: Vec<u8> = (0..=0x7E).map(|_| random.byte()).collect();
    let contents = |head: u64| {
        [&[0x7E][..], &[0x7F, 0x5E]].map(|datl| [&begin(head)[..], datl, &rest].concat())
    };
    let start = random.next();
    let head = solve::root(64, start, |head| difference(address, &contents(head)))?;
    Pair::of(address, &contents(head))
}

/// A write of outputs whose first data byte 7Eh, sent as 7Dh 5Eh, becomes 7Fh 5Eh, and whose last
/// two, 7Fh 5Eh, become 7Dh 5Eh. Unknown are the six bytes between, which move by one place.
fn two_flips(random: &mut Random) -> Option<Pair> {
    let address = sample::free_address(random);
    let head = [&begin(random.next())[..], &[9, 0x80]].concat();
    let contents = |between: u64| {
        let between = &between.to_be_bytes()[2..];
        [
            [&head[..], &[0x7E], between, &[0x7F, 0x5E]].concat(),
            [&head[..], &[0x7F, 0x5E], between, &[0x7E]].concat(),
        ]
    };
    let start = random.next();
    let between = solve::root(48, start, |bytes| difference(address, &contents(bytes)))?;
    Pair::of(address, &contents(between))
}

/// TYP to COM.
fn begin(head: u64) -> Vec<u8> {
    [
        &[typ::SAFE_REQUEST][..],
        &head.to_be_bytes(),
        &[com::SAFE_WRITE],
    ]
    .concat()
}

/// 0 if one safety CRC and one FCS are right for both.
fn difference(address: u8, contents: &Contents) -> u32 {
    let [before, after] = contents.each_ref().map(|content| {
        let covered = [&[address][..], content].concat();
        (crc(crc::SAFETY, content) as u32) << 16 | crc(crc::FCS, &covered) as u32
    });
    before ^ after
}

impl Pair {
    /// `None` if the bodies have not the same length on the wire.
    fn of(address: u8, contents: &Contents) -> Option<Pair> {
        let [before, after] = contents
            .clone()
            .map(|content| body::enclose(address, &frame::seal(content)));
        let turned = before.iter().zip(&after).map(|(a, b)| (a ^ b).count_ones());
        let flips = turned.sum();
        (before.len() == after.len()).then_some(Pair {
            flips,
            before,
            after,
        })
    }

    /// Both are read as frames, and as different ones.
    pub fn right(&self) -> bool {
        let [before, after] = [&self.before, &self.after].map(|line| frame::read(line));
        before.is_ok() && after.is_ok() && before != after
    }
}

impl fmt::Display for Pair {
    fn fmt(&self, output: &mut fmt::Formatter) -> fmt::Result {
        writeln!(output, "flips on the wire: {}", self.flips)?;
        for (what, line) in [("before", &self.before), ("after ", &self.after)] {
            writeln!(output, "  {what} {}", hex::encode(line))?;
            match frame::read(line) {
                Ok(read) => {
                    let (address, data) = (read.address, hex::encode(&read.data));
                    writeln!(output, "    to {address:02X}: {:02X?}", read.frame)?;
                    writeln!(output, "    data {data}")?;
                }
                Err(refusal) => writeln!(output, "    refused: {}", refusal.number())?,
            }
        }
        Ok(())
    }
}
