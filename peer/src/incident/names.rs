//! SID and TID assignments that mattered. Lines 1 to 12 are the opening, if not said.

use super::edge::Case;
use super::hand::{bare, blank, opening, Hand};
use crate::frame::{SidAssignment, BROADCAST};
use crate::generate::draft::Draft;
use crate::generate::speech;
use crate::tape::{FIRST, SECOND};

/// The own IID.
const IID: u64 = 2;

/// Six more concentrators, and one too many.
const OTHERS: [u32; 6] = [3, 4, 5, 6, 7, 8];
const NINTH: u32 = 9;

pub const CASES: [Case; 14] = [
    // Each of the four lines matters.
    ("sid-of-four-lines", "1", bare),
    ("sid-alone", "1", || {
        let heard = blank().assign(FIRST).sync(0x06).twice();
        heard.write(0x17, &[0x55]).twice().sync(0x07).twice()
    }),
    // Without line 13 the syncs of the second concentrator are 10.
    ("sid-of-second", "13", || {
        let next = opening(10, 2, 5).assign(SECOND).ticks(10);
        next.sync_of(SECOND, 0x08).twice().ticks(10)
    }),
    // It never sends a sync.
    ("sid-of-second-unused", "NONE", || {
        opening(10, 2, 5).assign(SECOND)
    }),
    // Line 2 has another SID (17). Without line 1 it is the first, and the release is for another (11).
    ("sid-before-another-sid", "1", || {
        let named = blank().assign(FIRST).say(&other_sid());
        let heard = named.sync(0x06).twice().write(0x17, &[0x55]).twice();
        heard.sync(0x07).twice()
    }),
    // The other SID came on no port, and the own one twice.
    ("sid-other-on-port-3", "NONE", || {
        let named = blank().say(&other_sid()).on_port(3).assign(FIRST).twice();
        let heard = named.sync(0x06).twice().write(0x17, &[0x55]).twice();
        heard.sync(0x07).twice()
    }),
    // Line 15 records the eighth, so that the ninth is 18 and its sync of a wrong cycle is 10; without it that is 12.
    ("sid-of-eighth", "15", || {
        let eight = eight().assign(NINTH);
        run(eight).stray_sync(NINTH, 0x50)
    }),
    // The same, but the ninth keeps silent.
    ("sid-of-eighth-ninth-silent", "NONE", || {
        run(eight().assign(NINTH))
    }),
    // Without line 3 the release, to 05h, is for another (6).
    ("tid-alone", "3", || {
        release_to(tid(named(), BROADCAST, 0x05), 0x05)
    }),
    ("tid-unused", "NONE", || {
        release_to(tid(named(), BROADCAST, 0x05), 0x90)
    }),
    // The TID that counts is given behind it, twice.
    ("tid-overruled", "NONE", || {
        let first = tid(named(), BROADCAST, 0x05);
        release_to(tid(first, BROADCAST, 0x06).twice(), 0x06)
    }),
    // The TID that counts is given to the address 05h, and without line 3 that is another's (6).
    ("tid-chain", "3", || {
        let first = tid(named(), BROADCAST, 0x05);
        release_to(tid(first, 0x05, 0x06).twice(), 0x06)
    }),
    // Line 15 takes 05h away, to which the order in line 16 goes (6).
    ("tid-shields-from-an-order", "15", || {
        let first = tid(opening(10, 2, 5), BROADCAST, 0x05).twice();
        tid(first, 0x90, 0x06).write_to(0x05, 0x17, &[0xAA])
    }),
    // 8Fh may not be assigned (17), and is the TID already: the write reaches the module, twice.
    ("tid-refused-17", "NONE", || {
        let same = tid(opening(100, 2, 1), 0x90, 0x8F);
        same.ticks(60).write_to(0x8F, 0x80, &[1]).twice().ticks(60)
    }),
];

/// Lines 1 and 2.
fn named() -> Hand {
    blank().assign(FIRST).twice()
}

fn tid(hand: Hand, address: u8, tid: u8) -> Hand {
    hand.say(&speech::tid(address, IID, tid))
}

/// To RUN, each frame twice; the release goes to this address.
fn release_to(hand: Hand, address: u8) -> Hand {
    let heard = hand.sync(0x06).twice();
    let released = heard.write_to(address, 0x17, &[0x55]).twice();
    released.sync(0x07).twice()
}

fn run(hand: Hand) -> Hand {
    release_to(hand, 0x90)
}

/// Seven concentrators twice each, in lines 1 to 14, and the eighth in line 15.
fn eight() -> Hand {
    let first = blank().assign(FIRST).twice();
    let seven = OTHERS
        .into_iter()
        .fold(first, |hand, src| hand.assign(src).twice());
    seven.assign(SECOND)
}

fn other_sid() -> Draft {
    let assignment = SidAssignment {
        src: FIRST,
        sec: 9,
        mac: 1,
        sid: 0x12_3456,
    };
    speech::sid(BROADCAST, assignment)
}
