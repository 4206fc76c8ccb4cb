//! What a line is: BAD lines count and are never taken out, `T` and `I` neither, though without one of them a script may
//! end in fallback. Lines 1 to 12 are the opening, if not said.

use super::edge::Case;
use super::hand::{bare, blank, opening, Hand};
use crate::tape::FIRST;

/// None of them ticks.
const NO_TICKS: [&str; 8] = ["T 0", "T 01", "T 60001", "T 1 ", "T  1", "t 1", "T", "I 00"];

/// None of them is a frame line.
const NO_FRAMES: [&str; 7] = ["1", "1 0", "1 0G", "1  00", "10 00", " 1 00", "A 00"];

pub const CASES: [Case; 22] = [
    ("bad-before", "6", || {
        then_bare(
            ["x", "", "T 0", "BAD", "1"]
                .iter()
                .fold(blank(), |hand, line| hand.line(line)),
        )
    }),
    ("bad-nearly-frames-before", "8", || {
        then_bare(NO_FRAMES.iter().fold(blank(), |hand, line| hand.line(line)))
    }),
    ("bad-no-text-before", "4", || {
        then_bare(blank().bytes(b"\0").bytes(b"\xFF\xFE").bytes(b"1 00\0"))
    }),
    // Line 2 is the first frame line.
    ("bad-between", "2", || {
        let named = blank().bad(1).assign(FIRST).bad(2).sync(0x06);
        named.bad(1).write(0x17, &[0x55]).bad(3).sync(0x07)
    }),
    ("bad-after", "1", || bare().bad(5)),
    ("bad-between-twice-each", "17", || {
        let spaced = opening(10, 2, 5).bad(3).ticks(10);
        spaced.sync(0x08).bad(2).ticks(10)
    }),
    // A CR makes a line BAD: the sync that would be needed, a copy, an order of fallback.
    ("cr-at-a-sync", "FALLBACK", || {
        opening(10, 2, 5).ticks(10).sync(0x08).with_cr().ticks(10)
    }),
    ("cr-at-a-copy", "14", || {
        let heard = opening(10, 2, 5).ticks(10).sync(0x08);
        heard.twice().with_cr().ticks(10)
    }),
    ("cr-at-the-order", "NONE", || {
        opening(10, 2, 5).write(0x17, &[0xAA]).with_cr()
    }),
    // On ports 0 and 3 to 9 nothing is taken (21).
    ("ports-0-and-3-to-9", "9", || {
        let ports = [0, 3, 4, 5, 6, 7, 8, 9];
        let before = ports
            .into_iter()
            .fold(blank(), |hand, port| hand.assign(FIRST).on_port(port));
        then_bare(before)
    }),
    ("order-on-port-3", "NONE", || {
        opening(10, 2, 5).write(0x17, &[0xAA]).on_port(3)
    }),
    ("sync-on-port-0", "15", || {
        let ported = opening(10, 2, 5).ticks(10).sync(0x08).on_port(0);
        ported.sync(0x08).ticks(10)
    }),
    // An empty body (1); one of 599 bytes (1), in a line of 1,200 characters; and one of 600, in a line too long (BAD).
    ("body-empty", "2", || then_bare(blank().line("1 "))),
    ("line-of-1200-characters", "2", || {
        then_bare(blank().line(&("1 ".to_string() + &"00".repeat(599))))
    }),
    ("line-of-1202-characters", "2", || {
        then_bare(blank().line(&("1 ".to_string() + &"00".repeat(600))))
    }),
    ("frames-in-small-letters", "1", || {
        let named = blank().assign(FIRST).in_small_letters();
        let heard = named.sync(0x06).in_small_letters();
        let released = heard.write(0x17, &[0x55]).in_small_letters();
        released.sync(0x07).in_small_letters()
    }),
    // Without line 13 the syncs are 22, and the cycle ends with the mark. But it is no frame.
    ("ticks-are-no-frame", "NONE", || {
        opening(100, 2, 5).ticks(100).sync(0x08).twice().ticks(100)
    }),
    ("ticks-before-a-sync", "17", || {
        let first = opening(100, 2, 5).ticks(100).sync(0x08).twice();
        first.ticks(100).sync(0x09).ticks(100)
    }),
    // Without line 14 the syncs come at 87 ms, 1 ms before their window.
    ("inputs-are-no-frame", "NONE", || {
        let last = opening(100, 2, 5).ticks(87).inputs(1);
        last.sync(0x08).twice().ticks(100)
    }),
    // Lines 15 to 24 are 10 ms.
    ("inputs-tick", "14", || {
        opening(10, 2, 5).ticks(10).sync(0x08).inputs(10)
    }),
    ("inputs-tick-9", "NONE", || {
        opening(10, 2, 5).ticks(10).sync(0x08).inputs(9)
    }),
    // If one of them ticked, line 14 would be needed.
    ("bad-lines-do-not-tick", "NONE", || {
        let heard = opening(10, 2, 5).ticks(10).sync(0x08).ticks(9);
        NO_TICKS.iter().fold(heard, |hand, line| hand.line(line))
    }),
];

/// The four lines that all matter.
fn then_bare(hand: Hand) -> Hand {
    let heard = hand.assign(FIRST).sync(0x06);
    heard.write(0x17, &[0x55]).sync(0x07)
}
