//! The load program: a module's share of the line, cycle by cycle. All lines are played first; what they came to is then
//! cut at the accepted syncs and added up.

mod course;
mod cycle;

pub use course::{Course, Told};
pub use cycle::{cycles, Cycle};

use std::io::{self, Read, Write};

/// Lines past this one are not read.
pub const LINES_MAX: usize = 1_000_000;

pub fn run(input: impl Read, mut output: impl Write) -> io::Result<()> {
    let mut course = Course::power_up();
    course.play(input, LINES_MAX)?;
    output.write_all(&print(&course))?;
    output.flush()
}

/// What is printed of the lines played.
pub fn print(course: &Course) -> Vec<u8> {
    let lines = cycles(&course.told).map(|cycle| format!("{cycle}\n"));
    lines.collect::<String>().into_bytes()
}
