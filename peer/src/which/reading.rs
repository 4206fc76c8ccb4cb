//! The lines of a script, if it is not too long. One byte too many is enough to know; none after it is waited for.

use super::{BYTES_MAX, LINES_MAX};
use std::io::{self, Read};

/// Without their LFs; `None` for a script that is too long. An error is one of reading.
pub fn read(input: impl Read) -> io::Result<Option<Vec<Vec<u8>>>> {
    let mut script = Vec::new();
    input.take(BYTES_MAX as u64 + 1).read_to_end(&mut script)?;
    let lines = lines(&script);
    let long = script.len() > BYTES_MAX || lines.len() > LINES_MAX;
    Ok((!long).then_some(lines))
}

/// A last line without LF is a line; none follows a final LF.
fn lines(script: &[u8]) -> Vec<Vec<u8>> {
    let lines = script.split_inclusive(|&byte| byte == b'\n');
    let without_lf = |line: &[u8]| line.strip_suffix(b"\n").unwrap_or(line).to_vec();
    lines.map(without_lf).collect()
}
