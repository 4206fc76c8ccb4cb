//! Where the line stands that mattered: first, last, between, and numbers of two and three digits. And long waits.

use super::edge::Case;
use super::hand::{blank, opening, twice_each, Hand};
use crate::tape::FIRST;

pub const CASES: [Case; 15] = [
    // The last line, with and without LF.
    ("last-line", "7", || entry(released())),
    ("last-line-no-lf", "7", || entry(released()).without_lf()),
    // The last line is a tick that is needed for the answer.
    ("last-line-ticks-no-lf", "14", || {
        let heard = opening(10, 2, 5).ticks(10).sync(0x08);
        heard.ticks(9).ticks(1).without_lf()
    }),
    // The last line is the copy of the sync that enters RUN.
    ("last-line-copy-no-lf", "NONE", || twice_each().without_lf()),
    ("number-9", "9", || entry(released().up_to(8))),
    ("number-10", "10", || entry(released().up_to(9))),
    ("number-99", "99", || entry(released().up_to(98))),
    ("number-100", "100", || entry(released().up_to(99))),
    ("number-137", "137", || entry(released().up_to(136)).bad(20)),
    ("number-199", "199", || entry(released().up_to(198))),
    // Line 137 is needed, and so is line 150.
    ("number-137-of-two", "137", || {
        let first = opening(10, 2, 9).up_to(135).ticks(10).sync(0x08);
        first.ticks(10).up_to(149).sync(0x09).ticks(10)
    }),
    // Frames that do not matter stand before it, and each of them is tried first.
    ("number-behind-60-frames", "73", || {
        let read = (0..60).fold(opening(255, 2, 5), |hand, _| hand.read(1, 0x19));
        let shield = read.write(0x10, &[1]);
        shield.same_number().write(0x17, &[0xAA])
    }),
    // 255 × 255 ms may be silent: lines 1 to 4, the settings in line 5.
    ("ticks-60000-in-run", "5", || {
        let heard = blank().assign(FIRST).twice().sync(0x06).twice();
        let set = heard.write(0x1A, &[255, 255]);
        let run = set.write(0x17, &[0x55]).twice().sync(0x07).twice();
        run.ticks(60_000)
    }),
    // 65,024 ms may be silent, 65,025 may not.
    ("ticks-65024-in-run", "NONE", || {
        opening(255, 255, 255).ticks(60_000).ticks(5_024)
    }),
    ("ticks-60000-first", "2", || {
        let heard = blank().ticks(60_000).assign(FIRST).sync(0x06);
        heard.write(0x17, &[0x55]).sync(0x07)
    }),
];

/// Lines 1 to 6, each frame twice: a release is pending.
pub fn released() -> Hand {
    let heard = blank().assign(FIRST).twice().sync(0x06).twice();
    heard.write(0x17, &[0x55]).twice()
}

/// The sync that enters RUN, once.
pub fn entry(hand: Hand) -> Hand {
    hand.sync(0x07)
}
