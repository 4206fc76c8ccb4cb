//! The shortest failing script that can be found by deleting lines, halves first.

use std::io;

/// A line, perhaps with something noted beside it that goes with it.
pub trait Line: Clone + AsRef<[u8]> + From<Vec<u8>> {}

impl<L: Clone + AsRef<[u8]> + From<Vec<u8>>> Line for L {}

pub fn shortest<L: Line>(
    lines: Vec<L>,
    fails: impl Fn(&[L]) -> io::Result<bool>,
) -> io::Result<Vec<L>> {
    let mut lines = lines;
    let mut size = lines.len() / 2;
    while size > 0 {
        let (fewer, any) = without_chunks(lines, size, &fails)?;
        lines = fewer;
        // Single lines are tried again and again, until none can go.
        if size > 1 || !any {
            size /= 2;
        }
    }
    fewer_ticks(lines, &fails)
}

/// Each run of `size` lines is deleted if the rest still fails; returns whether any was.
fn without_chunks<L: Line>(
    lines: Vec<L>,
    size: usize,
    fails: &impl Fn(&[L]) -> io::Result<bool>,
) -> io::Result<(Vec<L>, bool)> {
    let (mut lines, mut any, mut start) = (lines, false, 0);
    while start < lines.len() && lines.len() > 1 {
        let end = (start + size).min(lines.len());
        let rest = [&lines[..start], &lines[end..]].concat();
        if !rest.is_empty() && fails(&rest)? {
            (lines, any) = (rest, true);
        } else {
            start = end;
        }
    }
    Ok((lines, any))
}

/// Waits made as short as possible, by halves.
fn fewer_ticks<L: Line>(
    mut lines: Vec<L>,
    fails: &impl Fn(&[L]) -> io::Result<bool>,
) -> io::Result<Vec<L>> {
    for place in 0..lines.len() {
        while let Some(count) = ticks(lines[place].as_ref()).filter(|&count| count > 1) {
            let mut shorter = lines.clone();
            shorter[place] = format!("T {}", count / 2).into_bytes().into();
            if !fails(&shorter)? {
                break;
            }
            lines = shorter;
        }
    }
    Ok(lines)
}

fn ticks(line: &[u8]) -> Option<u32> {
    let digits = line.strip_prefix(b"T ")?;
    std::str::from_utf8(digits).ok()?.parse().ok()
}
