//! Scripts that end in fallback, whatever a removal would do, and those that just do not. Lines 1 to 12 are the opening, if
//! not said.

use super::edge::Case;
use super::hand::{blank, opening, twice_each};
use crate::tape::FIRST;

pub const CASES: [Case; 24] = [
    ("empty", "FALLBACK", blank),
    ("lf-alone", "FALLBACK", || blank().line("")),
    ("bad-alone", "FALLBACK", || blank().bad(3)),
    ("bad-alone-no-lf", "FALLBACK", || {
        blank().bad(1).without_lf()
    }),
    ("ticks-alone", "FALLBACK", || blank().ticks(1)),
    ("inputs-alone", "FALLBACK", || blank().inputs(2)),
    // One frame, or two, or three, are never RUN: it takes a SID, a sync, a release and another sync.
    ("one-frame", "FALLBACK", || blank().assign(FIRST)),
    ("one-frame-no-lf", "FALLBACK", || {
        blank().assign(FIRST).without_lf()
    }),
    ("three-frames", "FALLBACK", || {
        blank().assign(FIRST).sync(0x06).write(0x17, &[0x55])
    }),
    // As the decisions print it: no release.
    ("never-released", "FALLBACK", || {
        let named = blank().line("1 FF3CF0000000000000000205B8F7");
        let named = named.line("1 05C30000070000000100000000000000010000051535A918");
        let heard = named.line("1 FF0000000710CEEADE00");
        heard
            .line("1 050700000500000710F08801191CA90A3C")
            .ticks(255)
    }),
    ("released-without-a-sync", "FALLBACK", || {
        let heard = blank().assign(FIRST).twice().sync(0x06).twice();
        heard.write(0x17, &[0x55]).twice()
    }),
    // The sync behind the release is a repeat (13).
    ("released-and-a-repeat", "FALLBACK", || {
        let heard = blank().assign(FIRST).twice().sync(0x06).twice();
        heard.write(0x17, &[0x55]).twice().sync(0x06)
    }),
    // Without the order it would end in RUN.
    ("order-at-the-end", "FALLBACK", || {
        opening(10, 2, 5).write(0x17, &[0xAA])
    }),
    ("wrong-cycle-at-the-end", "FALLBACK", || {
        opening(10, 2, 5).sync(0x09)
    }),
    // One frame is needed for RUN before, and one for fallback now.
    ("needed-then-order", "FALLBACK", || {
        let needed = opening(10, 2, 5).ticks(10).sync(0x08).ticks(10);
        needed.sync(0x09).twice().write(0x17, &[0xAA])
    }),
    ("silence-at-the-end", "FALLBACK", || {
        opening(10, 2, 5).ticks(20)
    }),
    ("silence-of-1-ms-less", "NONE", || {
        opening(10, 2, 5).ticks(19)
    }),
    // 19 ms of silence and a tick with inputs.
    ("silence-by-inputs", "FALLBACK", || {
        opening(10, 2, 5).ticks(19).inputs(1)
    }),
    ("command-silence-at-the-end", "FALLBACK", || {
        opening(100, 2, 1).ticks(100)
    }),
    ("command-silence-of-1-ms-less", "NONE", || {
        opening(100, 2, 1).ticks(99)
    }),
    // 22, and the clock end.
    ("window-at-the-end", "FALLBACK", || {
        opening(100, 2, 5).ticks(50).sync(0x08).ticks(50)
    }),
    ("window-of-1-ms-less", "NONE", || {
        opening(100, 2, 5).ticks(50).sync(0x08).ticks(49)
    }),
    // 2 × 255 ms.
    ("ticks-60000-at-the-end", "FALLBACK", || {
        twice_each().ticks(60_000)
    }),
    ("ticks-510-at-the-end-no-lf", "FALLBACK", || {
        twice_each().ticks(510).without_lf()
    }),
];
