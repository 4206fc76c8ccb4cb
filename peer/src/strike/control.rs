//! The control: lines with a number that leaves something are struck, so that the comparison is seen to notice.

use super::marked::{self, Marked};
use super::printed::Printed;
use super::program::Printer;
use super::thinned;
use std::collections::BTreeMap;
use std::io;

/// The numbers that set a bit, count, or raise k, and come up in scripts.
pub const LEAVING: [u8; 9] = [1, 2, 3, 4, 7, 12, 14, 16, 22];

/// A number that comes up in this many scripts must be noticed in at least one.
const ENOUGH: usize = 20;

#[derive(Clone, Copy, Default)]
pub struct Count {
    /// The scripts that have such lines, and those in which a line that is left prints something else without them.
    pub scripts: usize,
    pub noticed: usize,
}

impl Count {
    pub fn right(&self) -> bool {
        self.scripts < ENOUGH || self.noticed > 0
    }
}

pub fn strike(
    trace: &Printer,
    lines: &[Marked],
    whole: &Printed,
    counts: &mut BTreeMap<u8, Count>,
) -> io::Result<()> {
    for number in LEAVING {
        let count = counts.entry(number).or_default();
        let struck = whole.answered(&[number]);
        if struck.contains(&true) {
            let lines = marked::with(lines, &struck);
            count.scripts += 1;
            count.noticed += thinned::compare(trace, whole, &lines)?.is_some() as usize;
        }
    }
    Ok(())
}
