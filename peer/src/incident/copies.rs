//! Frames that come twice: neither of them matters if the copy can take the place of the other.

use super::edge::Case;
use super::hand::{bare, blank, opening, twice_each};
use crate::tape::FIRST;

pub const CASES: [Case; 11] = [
    ("twice-each", "NONE", twice_each),
    ("twice-each-with-settings", "NONE", || opening(10, 2, 5)),
    ("twice-each-on-one-port", "NONE", || {
        let named = blank().assign(FIRST).twice().on_port(1);
        let heard = named.sync(0x06).twice().on_port(1);
        let released = heard.write(0x17, &[0x55]).twice().on_port(1);
        released.sync(0x07).twice().on_port(1)
    }),
    ("twice-each-cycles", "NONE", || {
        let first = opening(10, 2, 5).ticks(10).sync(0x08).twice();
        let second = first.write(0x80, &[1]).twice().ticks(9).sync(0x09).twice();
        second.write(0x80, &[2]).twice().ticks(19)
    }),
    // A script, and all of it again: the second time the syncs come in RUN, out of turn (12).
    ("twice-the-whole", "FALLBACK", || bare().repeated(4)),
    // On port 3 a frame is no copy (21).
    ("twice-on-port-3", "1", || {
        let named = blank().assign(FIRST).twice().on_port(3);
        named
            .sync(0x06)
            .twice()
            .write(0x17, &[0x55])
            .twice()
            .sync(0x07)
            .twice()
    }),
    // The first of the two is 21, so only the second counts.
    ("port-3-then-port-1", "2", || {
        let named = blank().assign(FIRST).on_port(3).assign(FIRST);
        named
            .sync(0x06)
            .twice()
            .write(0x17, &[0x55])
            .twice()
            .sync(0x07)
            .twice()
    }),
    // The copy of the release comes behind the next request. Without line 5 its number is one that was skipped (13).
    ("copy-behind-the-next-request", "5", || {
        let released = blank().assign(FIRST).twice().sync(0x06).twice();
        let read = released.write(0x17, &[0x55]).read(1, 0x17);
        read.lose(0xFE).write(0x17, &[0x55]).sync(0x07).twice()
    }),
    // A copy of the sync comes after 2 ms, where the window has 1. Without line 14 it is 22, and the cycle ends with the
    // mark.
    ("copy-outside-the-window", "14", || {
        let heard = opening(10, 3, 5).ticks(10).sync(0x08).ticks(2);
        heard.stray_sync(FIRST, 0x08).ticks(8)
    }),
    // A copy in small letters is a copy.
    ("copy-in-small-letters", "NONE", || {
        let run = blank().assign(FIRST).twice().sync(0x06).twice();
        let run = run.write(0x17, &[0x55]).twice();
        run.sync(0x07).twice().in_small_letters()
    }),
    // Three times, and then a last sync that comes once.
    ("three-times-then-once", "13", || {
        let named = blank().assign(FIRST).twice().twice();
        let heard = named.sync(0x06).twice().twice();
        let released = heard.write(0x17, &[0x55]).twice().twice();
        released.bad(3).sync(0x07)
    }),
];
