//! Frames that led to fallback and still mattered, since what follows them is for a module in fallback. Lines 1 to 12 are
//! the opening.

use super::edge::Case;
use super::hand::{opening, Hand};
use crate::tape::FIRST;

pub const CASES: [Case; 10] = [
    // 12 in line 13. Without it the sync of cycle 30h comes in RUN, is 12, and the release is lost.
    ("refused-12", "13", || {
        back(opening(10, 2, 5).stray_sync(FIRST, 0x20))
    }),
    // The last sync is one that RUN accepts too.
    ("refused-12-spared", "NONE", || {
        let fallen = opening(10, 2, 5).stray_sync(FIRST, 0x20);
        let released = fallen.write(0x17, &[0x55]).twice();
        released.ticks(10).sync(0x08).twice()
    }),
    // 12 in line 13 comes twice: the copy is accepted in fallback, and the requests of cycle 07h are 12.
    ("refused-12-twice", "FALLBACK", || {
        back(opening(10, 2, 5).stray_sync(FIRST, 0x20).twice())
    }),
    ("order-alone", "13", || {
        back(opening(10, 2, 5).write(0x17, &[0xAA]))
    }),
    ("order-twice", "NONE", || {
        back(opening(10, 2, 5).write(0x17, &[0xAA]).twice())
    }),
    // 22 in line 14 and the clock end in line 15. Without line 14 the sync of cycle 30h comes in RUN.
    ("refused-22", "14", || {
        let marked = opening(100, 2, 5).ticks(50).stray_sync(FIRST, 0x08);
        back(marked.ticks(50).sync(0x08).twice())
    }),
    // Every sync behind the mark is in its window.
    ("refused-22-spared", "NONE", || {
        let marked = opening(100, 2, 5).ticks(50).stray_sync(FIRST, 0x08);
        marked.ticks(38).sync(0x08).twice().ticks(100)
    }),
    // The mark is set and the cycle does not end.
    ("refused-22-last", "NONE", || {
        opening(100, 2, 5).ticks(50).stray_sync(FIRST, 0x08)
    }),
    // Only fallback takes the longer limit in line 14. Without line 13 it is 16 there, and 20 ms are too many.
    ("order-lets-settings-in", "13", || {
        let set = opening(10, 2, 5)
            .write(0x17, &[0xAA])
            .write(0x1B, &[4])
            .twice();
        let released = set.write(0x17, &[0x55]).twice().ticks(10);
        released.sync(0x08).twice().ticks(20)
    }),
    // 12 to a request leaves the mode.
    ("refused-12-of-a-request", "NONE", || {
        opening(10, 2, 5).ticks(10).write(0x80, &[1])
    }),
];

/// A release, and a sync that only fallback accepts.
fn back(hand: Hand) -> Hand {
    let released = hand.write(0x17, &[0x55]).twice();
    released.sync(0x30).twice()
}
