//! The which program: what the documents say of it, with answers worked out by hand, and how much of its input it asks for.

use super::Tally;
use crate::fuzz::which_frame;
use crate::incident;
use crate::which;
use std::io::{self, Read};

pub fn run(tally: &mut Tally) {
    for edge in incident::edges() {
        let right = which_frame(&edge.script) == format!("{}\n", edge.answer).into_bytes();
        tally.check(right, &format!("incident {}", edge.name));
    }
    cuts(tally);
    nothing_is_waited_for(tally);
    without_end(tally);
}

/// An incident in pieces of any size is the same incident.
fn cuts(tally: &mut Tally) {
    for name in [
        "sync-at-limit",
        "bytes-60000-lines-200",
        "bytes-60001-lines-200",
    ] {
        let script = incident::edge(name).unwrap_or_default();
        let whole = which_frame(&script);
        for size in [1, 2, 7, 4_096, 60_000] {
            let mut printed = Vec::new();
            let pieces = Pieces {
                left: &script,
                size,
            };
            let outcome = which::run(pieces, &mut printed);
            let right = outcome.is_ok() && printed == whole;
            tally.check(right, &format!("incident {name} in pieces of {size} bytes"));
        }
    }
}

/// An input of which at most so many bytes come at once.
struct Pieces<'a> {
    left: &'a [u8],
    size: usize,
}

impl Read for Pieces<'_> {
    fn read(&mut self, buffer: &mut [u8]) -> io::Result<usize> {
        let size = self.size.min(buffer.len()).min(self.left.len());
        buffer[..size].copy_from_slice(&self.left[..size]);
        self.left = &self.left[size..];
        Ok(size)
    }
}

/// An input that must not be asked for more.
struct Broken;

impl Read for Broken {
    fn read(&mut self, _: &mut [u8]) -> io::Result<usize> {
        Err(io::Error::other("read past the byte that decides"))
    }
}

/// With 60,001 bytes LONG is known. Until then everything is asked for, though the lines may be too many.
fn nothing_is_waited_for(tally: &mut Tally) {
    for (bytes, known) in [
        (b"x".repeat(60_001), true),
        (b"x\n".repeat(30_001), true),
        (b"\n".repeat(60_001), true),
        (b"x".repeat(60_000), false),
        (b"\n".repeat(60_000), false),
        (b"x\n".repeat(201), false),
        (Vec::new(), false),
    ] {
        let mut printed = Vec::new();
        let outcome = which::run(bytes.chain(Broken), &mut printed);
        let right = match known {
            true => outcome.is_ok() && printed == b"LONG\n",
            false => outcome.is_err() && printed.is_empty(),
        };
        let what = format!(
            "what the which program asks for after {} bytes",
            bytes.len()
        );
        tally.check(right, &what);
    }
}

fn without_end(tally: &mut Tally) {
    for byte in [b'x', b'\n', 0, b'1'] {
        let mut printed = Vec::new();
        let outcome = which::run(io::repeat(byte), &mut printed);
        let right = outcome.is_ok() && printed == b"LONG\n";
        tally.check(right, &format!("bytes {byte:02X}h without end"));
    }
}
