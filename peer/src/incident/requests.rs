//! Requests that mattered: the release, output writes, settings, and numbers that a request uses up, whatever it does.

use super::edge::Case;
use super::hand::{blank, opening, Hand};
use crate::tape::FIRST;

pub const CASES: [Case; 26] = [
    ("release-alone", "5", || {
        let heard = blank().assign(FIRST).twice().sync(0x06).twice();
        heard.write(0x17, &[0x55]).sync(0x07).twice()
    }),
    // After 2 × 255 ms a pending release has ended; line 10 is a new one.
    ("release-after-silence", "10", || {
        let released = heard().write(0x17, &[0x55]).twice().ticks(510);
        let again = released.sync(0x20).twice().write(0x17, &[0x55]);
        again.sync(0x21).twice()
    }),
    // 509 ms do not end it, and line 8 is the way to RUN. Line 10 is for nothing then.
    ("release-before-silence", "NONE", || {
        let released = heard().write(0x17, &[0x55]).twice().ticks(509);
        let run = released.sync(0x20).twice();
        run.write(0x17, &[0x55])
    }),
    // CNF_REP 1: 50 ms + 50 ms are TCYC without line 14.
    ("output-write-at-limit", "14", || {
        opening(100, 2, 1).ticks(50).write(0x80, &[1]).ticks(50)
    }),
    ("output-write-spared-by-1-ms", "NONE", || {
        opening(100, 2, 1).ticks(50).write(0x80, &[1]).ticks(49)
    }),
    // The first and the last output byte are enough: each of the two writes is needed.
    ("output-write-smallest-of-two", "14", || {
        let first = opening(100, 4, 1).ticks(60).write(0xBF, &[1]);
        let second = first.ticks(50).sync(0x08).twice().write(0x80, &[1]);
        second.ticks(60)
    }),
    // A refused write (16) in line 14 does not restart the limit, and the one behind it is there twice.
    ("output-write-refused-16", "NONE", || {
        let refused = opening(100, 2, 1).ticks(50).write(0xBF, &[1, 2]);
        refused.write(0x80, &[1]).twice().ticks(50)
    }),
    // TCYC 10, then 100 in line 7. Without it 30 ms are too many.
    ("write-of-tcyc", "7", || {
        let set = heard().write(0x18, &[10]).twice().write(0x18, &[100]);
        run(set).ticks(30)
    }),
    ("write-of-cnf-cyc", "7", || {
        let set = heard().write(0x18, &[10]).twice().write(0x1B, &[5]);
        run(set).ticks(30)
    }),
    // CNF_REP 1, then 5 in line 9. Without it 100 ms without an output write are too many.
    ("write-of-cnf-rep", "9", || {
        let set = heard().write(0x18, &[100]).twice();
        let set = set.write(0x1A, &[1]).twice().write(0x1A, &[5]);
        run(set).ticks(100)
    }),
    // Refused in RUN (16), so that the limit stays as it was.
    ("write-of-tcyc-in-run", "NONE", || {
        opening(100, 2, 5).write(0x18, &[200]).ticks(199)
    }),
    // Line 5 has number 3, the release 7. Without line 5 that is too far ahead (14).
    ("read-on-the-way", "5", || {
        climb(heard().lose(3).read(1, 0x19), 3)
    }),
    // An error reply, 55h.
    ("read-of-nothing-on-the-way", "5", || {
        climb(heard().lose(3).read(0, 0x80), 3)
    }),
    ("write-of-conf-on-the-way", "5", || {
        climb(heard().lose(2).write(0x25, &[0]), 1)
    }),
    ("write-of-counters-on-the-way", "5", || {
        climb(heard().lose(1).write(0x1E, &[0; 7]), 2)
    }),
    // Refused with 16, and still taken.
    ("refused-16-on-the-way", "5", || {
        climb(heard().lose(3).write(0x10, &[0x82]), 3)
    }),
    ("refused-16-without-data-on-the-way", "5", || {
        climb(heard().write(0x80, &[]), 3)
    }),
    // The release has number 3 and is taken without line 5 too.
    ("read-not-on-the-way", "NONE", || {
        climb(heard().read(1, 0x19), 2)
    }),
    ("refused-16-not-on-the-way", "NONE", || {
        climb(heard().write(0x10, &[0x82]), 2)
    }),
    // Line 5 with number 4 is 14, so the release with number 5 is 14 as well.
    ("refused-14-is-no-way", "FALLBACK", || {
        climb(heard().lose(4).read(1, 0x19), 0)
    }),
    // The order has the number of line 13 (13). Without line 13 it is taken.
    ("read-shields-from-an-order", "13", || {
        opening(10, 2, 5)
            .read(1, 0x19)
            .same_number()
            .write(0x17, &[0xAA])
    }),
    ("refused-16-shields-from-an-order", "13", || {
        opening(10, 2, 5)
            .write(0x18, &[0])
            .same_number()
            .write(0x17, &[0xAA])
    }),
    // Line 13 skips number 0, which is then 13 too.
    ("skip-shields-from-an-order", "13", || {
        let skipped = opening(10, 2, 5).lose(1).write(0x25, &[0]);
        skipped.lose(0xFE).write(0x17, &[0xAA])
    }),
    // Two shields: either may be lost.
    ("two-shields-from-an-order", "NONE", || {
        let two = opening(10, 2, 5).read(1, 0x19).read(1, 0x19);
        two.lose(0xFE).write(0x17, &[0xAA])
    }),
    // 64 numbers are used up, four at a time, and the order has the last of them (13). Without line 28 it is taken; without
    // an earlier step the next ones, and the order, are too far ahead (14).
    ("shield-at-the-limit", "28", || {
        full_cycle().same_number().write(0x17, &[0xAA])
    }),
    // The order has one number more (15), which is never taken.
    ("refused-15-at-the-limit", "NONE", || {
        full_cycle().write(0x17, &[0xAA])
    }),
];

/// Lines 1 to 4: in fallback, in the heard cycle 06h.
fn heard() -> Hand {
    blank().assign(FIRST).twice().sync(0x06).twice()
}

fn run(hand: Hand) -> Hand {
    hand.write(0x17, &[0x55]).twice().sync(0x07).twice()
}

/// Lines 13 to 28: reads with the numbers 3, 7 and so on up to 63.
fn full_cycle() -> Hand {
    (0..16).fold(opening(10, 2, 5), |hand, _| hand.lose(3).read(1, 0x19))
}

/// So many numbers are left out before the release.
fn climb(hand: Hand, lost: u8) -> Hand {
    run(hand.lose(lost))
}
