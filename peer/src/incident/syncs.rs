//! Syncs that mattered, and those that one more ms or one ms less spared. Lines 1 to 12 are the opening, if not said.

use super::edge::Case;
use super::hand::{blank, opening};
use crate::tape::{FIRST, SECOND};

pub const CASES: [Case; 17] = [
    // 10 ms + 10 ms are 2 × TCYC without line 14.
    ("sync-at-limit", "14", || {
        opening(10, 2, 5).ticks(10).sync(0x08).ticks(10)
    }),
    // 19 ms are not.
    ("sync-spared-by-1-ms", "NONE", || {
        opening(10, 2, 5).ticks(10).sync(0x08).ticks(9)
    }),
    // At the first ms of its window, 100 - 12; 88 ms + 112 ms are 2 × TCYC.
    ("sync-early-in-window", "14", || {
        opening(100, 2, 5).ticks(88).sync(0x08).ticks(112)
    }),
    // At the last ms of its window in an unheard cycle, 12.
    ("sync-late-in-window", "14", || {
        opening(100, 2, 5).ticks(112).sync(0x08).ticks(88)
    }),
    // CNF_CYC 1: without line 14 the cycle ends at 10 ms.
    ("sync-with-cnf-cyc-1", "14", || {
        opening(10, 1, 5).ticks(9).sync(0x08).ticks(9)
    }),
    // The clock has stepped from FFh to 00h. 11 ms + 10 ms are too many without line 16.
    ("sync-over-the-wrap", "16", || {
        let named = blank().assign(FIRST).twice().sync(0xFD).twice();
        let set = named.write(0x18, &[10]).twice();
        let run = set.write(0x17, &[0x55]).twice().sync(0xFE).twice();
        let on = run.ticks(10).sync(0xFF).twice().ticks(10);
        on.ticks(1).sync(0x00).ticks(10)
    }),
    // Line 14 on port 2.
    ("sync-on-port-2", "14", || {
        opening(10, 2, 5).ticks(10).sync(0x08).on_port(2).ticks(10)
    }),
    // Without line 14 there is fallback for a while; then comes a new release.
    ("sync-lost-and-recovered", "NONE", || {
        let lost = opening(10, 2, 5).ticks(10).sync(0x08).ticks(10);
        let released = lost.sync(0x09).twice().write(0x17, &[0x55]).twice();
        released.ticks(10).sync(0x0A).twice()
    }),
    // The sync behind the release, as the last line: without it a release is pending, and no more.
    ("sync-of-entry", "7", || {
        let named = blank().assign(FIRST).twice().sync(0x06).twice();
        named.write(0x17, &[0x55]).twice().sync(0x07)
    }),
    // The sync before the release: without it the release has no source (10).
    ("sync-before-release", "3", || {
        let named = blank().assign(FIRST).twice().sync(0x06);
        named.write(0x17, &[0x55]).twice().sync(0x07).twice()
    }),
    // Both are needed, each for 10 ms; the one behind them for 9 ms is not.
    ("sync-smallest-of-two", "14", || {
        let two = opening(10, 2, 9).ticks(10).sync(0x08).ticks(10).sync(0x09);
        two.ticks(10).sync(0x0A).ticks(9)
    }),
    // Without the first of them 19 ms go by, without the second 20, without the third 21.
    ("sync-second-of-three", "16", || {
        let two = opening(10, 2, 9).ticks(10).sync(0x08).ticks(9).sync(0x09);
        two.ticks(11).sync(0x0A).ticks(10)
    }),
    // CNF_CYC 5: any one may be lost.
    ("syncs-to-spare", "NONE", || {
        let two = opening(10, 5, 9).ticks(10).sync(0x08).ticks(10).sync(0x09);
        two.ticks(10).sync(0x0A).ticks(10)
    }),
    // The next concentrator takes over in line 16, so the order in cycle 07h comes from a deposed one (10).
    ("sync-that-deposes", "16", || {
        let two = opening(10, 2, 5).assign(SECOND).twice().ticks(9);
        let taken = two.stray_sync(SECOND, 0x08);
        taken.write(0x17, &[0xAA])
    }),
    // Cycle 08h begins in line 14, so the order of cycle 07h is 12.
    ("sync-that-ends-a-cycle", "14", || {
        let next = opening(10, 2, 5).ticks(9).stray_sync(FIRST, 0x08);
        next.write(0x17, &[0xAA])
    }),
    // 22 in line 14 sets the mark, line 16 clears it; without that the clock end is fallback.
    ("sync-that-clears-the-mark", "16", || {
        let marked = opening(100, 2, 5).ticks(50).stray_sync(FIRST, 0x08);
        marked.ticks(38).sync(0x08).ticks(100)
    }),
    // A repeat (13) changes nothing: without line 14 its copy is a ms late, but in the window.
    ("sync-again-after-1-ms", "NONE", || {
        let heard = opening(10, 2, 5).ticks(10).sync(0x08);
        heard.ticks(1).stray_sync(FIRST, 0x08).ticks(10)
    }),
];
