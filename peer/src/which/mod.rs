//! The which program: the one frame of a script that mattered. The whole script is read and measured first, then played.
//! If it ends in RUN, it is played once more for each of its frame lines, from power-up and without that line.

mod reading;
mod removal;

pub use reading::read;
pub use removal::{decides, ends_in_run, mattering};

use crate::script::{parse, Line};
use std::fmt;
use std::io::{self, Read, Write};

/// A script with more lines is too long.
pub const LINES_MAX: usize = 200;

/// A script with more bytes is too long, whatever its lines are.
pub const BYTES_MAX: usize = 60_000;

#[derive(Clone, Copy, Debug, PartialEq, Eq)]
pub enum Outcome {
    Long,
    Fallback,
    /// The smallest number of a line that mattered.
    Line(usize),
    None,
}

pub fn run(input: impl Read, mut output: impl Write) -> io::Result<()> {
    writeln!(output, "{}", outcome(input)?)?;
    output.flush()
}

/// An error is one of reading.
pub fn outcome(input: impl Read) -> io::Result<Outcome> {
    Ok(match read(input)? {
        None => Outcome::Long,
        Some(lines) => judge(&parsed(&lines)),
    })
}

/// What each line is; `None` for a BAD one.
pub fn parsed(lines: &[Vec<u8>]) -> Vec<Option<Line>> {
    lines.iter().map(|line| parse(line)).collect()
}

fn judge(lines: &[Option<Line>]) -> Outcome {
    if !ends_in_run(lines) {
        return Outcome::Fallback;
    }
    let first = (1..=lines.len()).find(|&number| decides(lines, number));
    first.map_or(Outcome::None, Outcome::Line)
}

impl fmt::Display for Outcome {
    fn fmt(&self, output: &mut fmt::Formatter) -> fmt::Result {
        match self {
            Outcome::Long => write!(output, "LONG"),
            Outcome::Fallback => write!(output, "FALLBACK"),
            Outcome::Line(number) => write!(output, "{number}"),
            Outcome::None => write!(output, "NONE"),
        }
    }
}
