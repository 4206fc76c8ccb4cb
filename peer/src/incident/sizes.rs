//! How long a script may be: 200 lines, a last one without LF among them, and 60,000 bytes, LFs among them. LONG is judged
//! before all else.

use super::edge::Case;
use super::hand::{bare, blank, opening, twice_each, Hand};
use super::places::{entry, released};

pub const OF_LINES: [Case; 18] = [
    ("lines-199", "NONE", || twice_each().up_to(199)),
    ("lines-200", "NONE", || twice_each().up_to(200)),
    ("lines-201", "LONG", || twice_each().up_to(201)),
    ("lines-202", "LONG", || twice_each().up_to(202)),
    ("lines-199-no-lf", "NONE", || {
        twice_each().up_to(199).without_lf()
    }),
    ("lines-200-no-lf", "NONE", || {
        twice_each().up_to(200).without_lf()
    }),
    // The 201st has no LF.
    ("lines-201-no-lf", "LONG", || {
        twice_each().up_to(201).without_lf()
    }),
    // An empty line is one, if it has its LF.
    ("lines-200-and-an-empty-one", "LONG", || {
        twice_each().up_to(200).line("")
    }),
    ("lines-199-and-an-empty-one", "NONE", || {
        twice_each().up_to(199).line("")
    }),
    // The last line that may be there matters, with and without its LF.
    ("lines-200-last-matters", "200", || {
        entry(released().up_to(199))
    }),
    ("lines-200-last-matters-no-lf", "200", || {
        entry(released().up_to(199)).without_lf()
    }),
    ("lines-201-last-matters", "LONG", || {
        entry(released().up_to(200))
    }),
    ("lines-200-fallback", "FALLBACK", || blank().up_to(200)),
    ("lines-201-fallback", "LONG", || blank().up_to(201)),
    // The first 200 end in RUN, and the last one is the order of fallback; and the other way round.
    ("lines-201-order-last", "LONG", || {
        opening(10, 2, 5).up_to(200).write(0x17, &[0xAA])
    }),
    ("lines-201-first-matters", "LONG", || bare().up_to(201)),
    // As many as look like 8 if they are counted in a byte.
    ("lines-264", "LONG", || twice_each().up_to(264)),
    // All of them frame lines.
    ("lines-200-frames", "NONE", || {
        twice_each().frames_up_to(200)
    }),
];

pub const OF_BYTES: [Case; 13] = [
    // One line.
    ("bytes-60000-in-1-line", "FALLBACK", || {
        blank().bad(1).wide(60_000)
    }),
    ("bytes-60001-in-1-line", "LONG", || {
        blank().bad(1).wide(60_001)
    }),
    ("bytes-60000-in-1-line-no-lf", "FALLBACK", || {
        blank().bad(1).without_lf().wide(60_000)
    }),
    ("bytes-60001-in-1-line-no-lf", "LONG", || {
        blank().bad(1).without_lf().wide(60_001)
    }),
    ("bytes-59999", "9", || wide(59_999)),
    ("bytes-60000", "9", || wide(60_000)),
    ("bytes-60001", "LONG", || wide(60_001)),
    // The last line has no LF: with one it would be too long.
    ("bytes-60000-no-lf", "9", || wide_without_lf(60_000)),
    ("bytes-60001-no-lf", "LONG", || wide_without_lf(60_001)),
    // A release is pending, and no more.
    ("bytes-60001-fallback", "LONG", || {
        released().bad(1).wide(60_001)
    }),
    ("bytes-60000-fallback", "FALLBACK", || {
        released().bad(1).wide(60_000)
    }),
    // The order of fallback ends with the last byte, so that the first 60,000 bytes end in RUN.
    ("bytes-60020-order-last", "LONG", || {
        opening(10, 2, 5).bad(1).write(0x17, &[0xAA]).wide(60_020)
    }),
    // As many as look like 500 if they are counted in 16 bits.
    ("bytes-66036", "LONG", || twice_each().bad(1).wide(66_036)),
];

pub const OF_BOTH: [Case; 6] = [
    ("bytes-60000-lines-200", "200", || {
        entry(released().up_to(199)).wide(60_000)
    }),
    ("bytes-60001-lines-200", "LONG", || {
        entry(released().up_to(199)).wide(60_001)
    }),
    ("bytes-60000-lines-201", "LONG", || {
        entry(released().up_to(200)).wide(60_000)
    }),
    ("bytes-60001-lines-201", "LONG", || {
        entry(released().up_to(200)).wide(60_001)
    }),
    ("bytes-60000-lines-200-no-lf", "200", || {
        entry(released().up_to(199)).without_lf().wide(60_000)
    }),
    ("bytes-60001-lines-200-no-lf", "LONG", || {
        entry(released().up_to(199)).without_lf().wide(60_001)
    }),
];

/// Two BAD lines, and the sync in line 9.
fn two_bad() -> Hand {
    entry(released().bad(2))
}

fn wide(bytes: usize) -> Hand {
    two_bad().wide(bytes)
}

fn wide_without_lf(bytes: usize) -> Hand {
    two_bad().without_lf().wide(bytes)
}
