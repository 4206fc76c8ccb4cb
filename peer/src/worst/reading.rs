//! The counts of a journey, or the first fault in reading order. After a fault no byte is waited for.

use super::forms::{Forms, LENGTH_MAX};
use super::LINES_MAX;
use std::io::{self, BufRead, BufReader, Read};

#[derive(Clone, Copy, Debug, PartialEq, Eq)]
pub enum Fault {
    /// A line of another form, by its number.
    Bad(usize),
    /// A line past the last that may be there.
    Long,
}

/// An error is one of reading.
pub fn read(input: impl Read) -> io::Result<Result<Vec<u8>, Fault>> {
    let mut input = BufReader::new(input);
    let (forms, mut counts) = (Forms::new(), Vec::new());
    while counts.len() < LINES_MAX {
        let Some(line) = next_line(&mut input)? else {
            return Ok(Ok(counts));
        };
        match forms.count(&line) {
            Some(count) => counts.push(count),
            None => return Ok(Err(Fault::Bad(counts.len() + 1))),
        }
    }
    Ok(match input.fill_buf()? {
        [] => Ok(counts),
        _ => Err(Fault::Long),
    })
}

/// Without its LF; of a line that is too long only the start. `None` at the end of the input: no line follows a final LF,
/// but a last line may lack its LF.
fn next_line(input: &mut impl BufRead) -> io::Result<Option<Vec<u8>>> {
    let mut line = Vec::new();
    let mut start = input.take(LENGTH_MAX as u64 + 1);
    if start.read_until(b'\n', &mut line)? == 0 {
        return Ok(None);
    }
    if line.last() == Some(&b'\n') {
        line.pop();
    }
    Ok(Some(line))
}
