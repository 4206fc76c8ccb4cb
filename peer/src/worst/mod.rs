//! The journey program: the worst thousand cycles. All lines are read and judged first. Then every stretch is summed anew,
//! the largest sum is taken, and then the earliest stretch that has it.

mod forms;
mod reading;
mod stretch;

pub use forms::Forms;
pub use reading::{read, Fault};
pub use stretch::{sums, worst, Worst};

use std::fmt;
use std::io::{self, Read, Write};

/// A line past this one is not judged: it is one too many.
pub const LINES_MAX: usize = 1_000_000;

/// The lines of a stretch.
pub const STRETCH: usize = 1_000;

#[derive(Clone, Copy, Debug, PartialEq, Eq)]
pub enum Outcome {
    Worst(Worst),
    Short,
    Fault(Fault),
}

pub fn run(input: impl Read, mut output: impl Write) -> io::Result<()> {
    writeln!(output, "{}", outcome(input)?)?;
    output.flush()
}

pub fn outcome(input: impl Read) -> io::Result<Outcome> {
    Ok(match read(input)? {
        Err(fault) => Outcome::Fault(fault),
        Ok(counts) => worst(&counts).map_or(Outcome::Short, Outcome::Worst),
    })
}

impl fmt::Display for Outcome {
    fn fmt(&self, output: &mut fmt::Formatter) -> fmt::Result {
        match self {
            Outcome::Worst(Worst { sum, first }) => write!(output, "{sum} {first}"),
            Outcome::Short => write!(output, "SHORT"),
            Outcome::Fault(Fault::Long) => write!(output, "LONG"),
            Outcome::Fault(Fault::Bad(number)) => write!(output, "{number} BAD"),
        }
    }
}
