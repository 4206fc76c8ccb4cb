//! What may stand about the last line that is read, behind lines that all scripts have in common.

use crate::generate::Ring;

pub struct Case {
    pub name: &'static str,
    /// From the first line that is not in common on.
    pub tail: Vec<u8>,
    pub after: After,
}

/// What comes behind the tail.
#[derive(Clone, Copy, Debug, PartialEq, Eq)]
pub enum After {
    /// The input ends.
    End,
    /// Nothing, but the input does not end.
    Nothing,
    /// More lines of the ring.
    Lines,
}

pub const WHOLE: &str = "as many lines as are read";
pub const GOES_ON: &str = "lines of the ring without end";
pub const OPENS: &str = "the last opens a cycle, and the input stays open";
pub const NO_LF: &str = "the last opens a cycle and has no LF";
pub const WOULD_OPEN: &str = "one more would open a cycle";
pub const WOULD_SEND: &str = "one more would send a reply, without LF";
pub const BAD_LAST: &str = "BAD lines at the end, and one more would open a cycle";

pub const CROWDED: &str = "one cycle with more bytes than a dividend of 32 bits holds";

/// So many lines, at least, are not in common.
const LAST: usize = 20;

/// None of these is a line of a script. The last are too long, one of them longer than any buffer.
const BAD: [(&[u8], usize); 6] = [
    (b"", 1),
    (b"T 0", 1),
    (b"1 0", 1),
    (b"\xFF", 1),
    (b"1", 1201),
    (b"2", 100_000),
];

/// How many lines are in common. The one after them is a sync.
pub fn common(ring: &Ring, most: usize) -> usize {
    ring.last_sync(most - LAST)
}

/// With `most` lines to be read.
pub fn cases(ring: &Ring, most: usize) -> Vec<Case> {
    let start = common(ring, most);
    let left = most - start;
    let lines = |first, count| ring.text(start + first..start + first + count);
    let without_lf = |mut text: Vec<u8>| {
        text.pop();
        text
    };
    let (sync, read) = (lines(0, 1), lines(2, 1));
    let tails = [
        (WHOLE, After::End, vec![lines(0, left)]),
        (GOES_ON, After::Lines, vec![lines(0, left)]),
        (OPENS, After::Nothing, vec![bad(left - 1), sync.clone()]),
        (NO_LF, After::End, vec![bad(left - 1), without_lf(sync)]),
        (WOULD_OPEN, After::End, vec![bad(left), lines(0, 2)]),
        (
            WOULD_SEND,
            After::End,
            vec![lines(0, 2), bad(left - 2), without_lf(read)],
        ),
        (
            BAD_LAST,
            After::End,
            vec![lines(0, 4), bad(left - 4), lines(4, 1)],
        ),
    ];
    tails
        .map(|(name, after, parts)| Case {
            name,
            tail: parts.concat(),
            after,
        })
        .into()
}

/// Names and a sync, then the same name again and again, each time acknowledged with 26 bytes or more.
pub fn crowded(ring: &Ring) -> Vec<u8> {
    let [start, assignment] = [0..3, 1..2].map(|places| ring.text(places));
    [start, assignment.repeat(20_000)].concat()
}

/// So many BAD lines, the longest last.
fn bad(count: usize) -> Vec<u8> {
    let mut kinds = BAD.iter().cycle().take(count).collect::<Vec<_>>();
    kinds.sort_by_key(|(_, times)| *times);
    let lines = kinds.iter().map(|(text, times)| text.repeat(*times));
    lines
        .flat_map(|line| [line, b"\n".to_vec()].concat())
        .collect()
}
