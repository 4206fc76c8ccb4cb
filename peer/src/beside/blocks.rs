//! Lines about the end of a block of input, wherever a program may cut it: a count, the last of them without LF, and a line
//! of another form.

/// The blocks may have 2 to the power of these bytes.
const POWERS: std::ops::RangeInclusive<u32> = 12..=18;

/// Such a line begins so many bytes before the end of a block.
const BEFORE: std::ops::RangeInclusive<usize> = 0..=4;

/// The line with what comes after it.
const ENDINGS: [(&str, &[u8]); 5] = [
    ("a count without LF", b"255"),
    ("a last count", b"255\n"),
    ("a count", b"255\n1\n12\n"),
    ("256", b"256\n1\n"),
    ("an empty line", b"\n1\n"),
];

/// Each with its name.
pub fn journeys() -> Vec<(String, Vec<u8>)> {
    let mut journeys = Vec::new();
    for power in POWERS {
        for before in BEFORE {
            for (what, ending) in ENDINGS {
                let size = 1 << power;
                let name = format!("{what}, {before} bytes before the end of {size}");
                journeys.push((name, [&lines(size - before)[..], ending].concat()));
            }
        }
    }
    journeys
}

/// Counts that take just so many bytes.
fn lines(bytes: usize) -> Vec<u8> {
    let first: &[u8] = match bytes % 4 {
        0 => b"",
        1 => b"12\n1\n",
        2 => b"1\n",
        _ => b"12\n",
    };
    [first, &b"123\n".repeat((bytes - first.len()) / 4)].concat()
}
