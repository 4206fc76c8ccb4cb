//! A cycle of the line load, from one accepted sync to the line before the next, and its share of the line.

use super::course::Told;
use std::fmt;

const BITS_A_BYTE: u64 = 10;
const THOUSANDTHS: u64 = 1_000;
const BITS_A_MS: u64 = 12_000;

#[derive(Clone, Copy, Debug, PartialEq, Eq)]
pub struct Cycle {
    /// The number of the line with its sync.
    pub first: usize,
    /// As it was at that sync.
    pub tcyc: u8,
    /// Flags and stuffing included.
    pub wire_bytes: u64,
}

/// Nothing before the first accepted sync belongs to a cycle.
pub fn cycles(told: &[Told]) -> impl Iterator<Item = Cycle> + '_ {
    let before = told.iter().take_while(|told| told.opens.is_none()).count();
    let stretches = told[before..].chunk_by(|_, next| next.opens.is_none());
    let mut next = before + 1;
    stretches.filter_map(move |lines| {
        let first = next;
        next += lines.len();
        Some(Cycle {
            first,
            tcyc: lines[0].opens?,
            wire_bytes: lines.iter().map(|told| told.sent as u64).sum(),
        })
    })
}

impl Cycle {
    pub fn dividend(&self) -> u64 {
        self.wire_bytes * BITS_A_BYTE * THOUSANDTHS
    }

    pub fn divisor(&self) -> u64 {
        self.tcyc as u64 * BITS_A_MS
    }

    /// In thousandths of the line, rounded down.
    pub fn quotient(&self) -> u64 {
        self.dividend() / self.divisor()
    }

    pub fn remainder(&self) -> u64 {
        self.dividend() % self.divisor()
    }
}

impl fmt::Display for Cycle {
    fn fmt(&self, output: &mut fmt::Formatter) -> fmt::Result {
        let (first, quotient, remainder) = (self.first, self.quotient(), self.remainder());
        write!(output, "{first} {quotient} {remainder}")
    }
}
