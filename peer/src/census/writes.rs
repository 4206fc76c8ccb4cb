//! Where a write lies, against the spans that can be written.

use crate::frame::Frame;
use crate::module::registers::GROUND;

/// First and last register of each span.
const SPANS: [(usize, usize); 6] = [
    (0x17, 0x17),
    (0x18, 0x18),
    (0x1A, 0x1D),
    (0x1E, 0x24),
    (0x25, 0x25),
    (0x80, 0xBF),
];

/// A place for each span whose edges the write meets, and one if it covers 26h.
pub fn places(frame: &Frame) -> Vec<String> {
    let Frame::SafeWrite { span, .. } = *frame else {
        return Vec::new();
    };
    let (first, length) = (span.add as usize, span.datl as usize);
    SPANS
        .into_iter()
        .filter_map(|edges| Some((edges, place(edges, first, length)?)))
        .map(|((low, high), place)| format!("write {low:02X}h to {high:02X}h: {place}"))
        .chain(over_ground(first, length))
        .collect()
}

fn over_ground(first: usize, length: usize) -> Option<String> {
    let covered = (first..first + length).contains(&(GROUND as usize));
    covered.then(|| match first {
        0x24.. => format!("write over 26h from {first:02X}h"),
        _ => "write over 26h from below 24h".to_string(),
    })
}

fn place((low, high): (usize, usize), first: usize, length: usize) -> Option<&'static str> {
    let inside = low..=high;
    if length == 0 {
        return inside.contains(&first).then_some("no byte");
    }
    let last = first + length - 1;
    match (inside.contains(&first), inside.contains(&last)) {
        (true, true) if first == low && last == high => Some("whole"),
        (true, true) if length == 1 && first == low => Some("first"),
        (true, true) if length == 1 && first == high => Some("last"),
        (true, true) => Some("part"),
        (true, false) => Some("over its end"),
        (false, true) => Some("over its start"),
        (false, false) if first < low && last > high => Some("around it"),
        (false, false) if last + 1 == low => Some("up to its start"),
        (false, false) if first == high + 1 => Some("from behind its end"),
        _ => None,
    }
}
