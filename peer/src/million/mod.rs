//! Scripts of a million lines and more through this load program and another: both stop at the millionth, and print the
//! same. They have all lines in common but the last few, so that this program plays those once. And one cycle with very
//! many bytes.

pub mod case;
mod feed;
mod report;

pub use case::{cases, common, After, Case};
pub(crate) use feed::feed;
pub use report::{Compared, Report};

use crate::fuzz;
use crate::generate::Ring;
use crate::load::{self, Course, LINES_MAX};
use std::io;

/// All scripts, through the program with this command. An error is one of running it.
pub fn run(command: &[&str]) -> io::Result<Report> {
    let ring = Ring::new();
    let shared = ring.text(0..common(&ring, LINES_MAX));
    let behind = ring.text(LINES_MAX..LINES_MAX + feed::TOO_MANY);
    let mut start = Course::power_up();
    start.play(&shared[..], LINES_MAX)?;
    let mut compared = Vec::new();
    for case in cases(&ring, LINES_MAX) {
        let own = print(&start, &case, LINES_MAX)?;
        let fed = feed(command, [&shared, &case.tail, &behind], case.after)?;
        compared.push(Compared::of(case.name, &own, &fed.printed, fed.went_on));
    }
    let crowded = case::crowded(&ring);
    let fed = feed(command, [&crowded, b"", b""], After::End)?;
    let own = fuzz::line_load(&crowded);
    compared.push(Compared::of(case::CROWDED, &own, &fed.printed, None));
    Ok(Report { compared })
}

/// What this program prints if it reads so many lines, when the lines in common have been played.
pub fn print(start: &Course, case: &Case, most: usize) -> io::Result<Vec<u8>> {
    let mut course = start.clone();
    course.play(&case.tail[..], most)?;
    Ok(load::print(&course))
}
