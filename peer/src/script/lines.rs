//! Lines from a stream, of any bytes and any length, none held longer than need be.

use super::line::LINE_MAX;
use std::io::{self, BufRead, BufReader, Read};

/// One character too many shows that a line is too long.
const KEPT_MAX: usize = LINE_MAX + 1;

pub struct Lines<R: Read> {
    input: BufReader<R>,
    line: Vec<u8>,
}

impl<R: Read> Lines<R> {
    pub fn new(input: R) -> Self {
        Lines {
            input: BufReader::new(input),
            line: Vec::new(),
        }
    }

    /// Whether the next line has to be waited for.
    pub fn would_wait(&self) -> bool {
        self.input.buffer().is_empty()
    }

    /// The next line without its LF, cut to `KEPT_MAX`; `None` at the end. A last line
    /// without LF is a line; no line follows a final LF.
    pub fn next_line(&mut self) -> io::Result<Option<&[u8]>> {
        self.line.clear();
        let mut start = self.input.by_ref().take(KEPT_MAX as u64);
        if start.read_until(b'\n', &mut self.line)? == 0 {
            return Ok(None);
        }
        if self.line.last() == Some(&b'\n') {
            self.line.pop();
        } else if self.line.len() == KEPT_MAX {
            self.input.skip_until(b'\n')?;
        }
        Ok(Some(&self.line))
    }
}
