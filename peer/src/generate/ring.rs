//! A busy ring in RUN, any line of it by its place: names, TCYC and release, then cycle after cycle a sync, a write of all
//! outputs, a read of them, and the wait for the end of the cycle.

use super::draft::Draft;
use super::speech;
use crate::frame::{Head, SidAssignment, BROADCAST};
use crate::hex;
use crate::module::first_seq;
use crate::module::registers::{OUTPUTS, OUT_REP, RELEASE, TCYC};
use crate::stuffing::{ESCAPE, FLAG};
use std::ops::Range;

const OWN: u32 = 0x12_3456;
const CONCENTRATOR: u32 = 0x11_EE11;
const TID: u8 = 0x05;

/// In ms. The sync comes at the clock end, where it is in its window.
const TIME: u8 = 10;

/// The CYC before 00h, with which RUN begins.
const LAST: u8 = 0xFF;

pub struct Ring {
    opening: Vec<Vec<u8>>,
    /// The lines of a cycle, by its CYC.
    cycles: Vec<[Vec<u8>; 4]>,
}

/// The first lines of it, as one text.
pub fn ring(count: usize) -> Vec<u8> {
    Ring::new().text(0..count)
}

impl Ring {
    pub fn new() -> Ring {
        Ring {
            opening: opening(),
            cycles: (0..=0xFF).map(cycle).collect(),
        }
    }

    /// The places start with 0.
    pub fn line(&self, place: usize) -> &[u8] {
        match place.checked_sub(self.opening.len()) {
            None => &self.opening[place],
            Some(behind) => &self.cycles[behind / 4 % 256][behind % 4],
        }
    }

    /// Each line with its LF.
    pub fn text(&self, places: Range<usize>) -> Vec<u8> {
        let mut text = Vec::new();
        for place in places {
            text.extend(self.line(place));
            text.push(b'\n');
        }
        text
    }

    /// The largest place up to this one with a sync in RUN. There must be one.
    pub fn last_sync(&self, place: usize) -> usize {
        place - (place - self.opening.len()) % 4
    }
}

impl Default for Ring {
    fn default() -> Ring {
        Ring::new()
    }
}

/// In fallback: cycle FFh, with a TCYC and a release.
fn opening() -> Vec<Vec<u8>> {
    let assignment = SidAssignment {
        src: CONCENTRATOR,
        sec: 7,
        mac: 1,
        sid: OWN,
    };
    [
        speech::tid(BROADCAST, 2, TID),
        speech::sid(TID, assignment),
        speech::sync(CONCENTRATOR, LAST),
        speech::write(TID, head(LAST, 0), TCYC, &[TIME]),
        speech::write(TID, head(LAST, 1), OUT_REP, &[RELEASE]),
    ]
    .map(|draft| said(&draft))
    .to_vec()
}

fn cycle(cyc: u8) -> [Vec<u8>; 4] {
    let outputs = *OUTPUTS.start() as u8;
    [
        said(&speech::sync(CONCENTRATOR, cyc)),
        said(&speech::write(TID, head(cyc, 0), outputs, &image(cyc))),
        said(&speech::read(TID, head(cyc, 1), 64, outputs)),
        format!("T {TIME}").into_bytes(),
    ]
}

/// The 64 outputs; with each cycle more of them need stuffing, then none again.
fn image(cyc: u8) -> Vec<u8> {
    let stuffed = cyc as usize % 65;
    let outputs = (0..64).map(|place| match place < stuffed {
        true if place % 2 == 0 => ESCAPE,
        true => FLAG,
        false => cyc ^ 0x80,
    });
    outputs.collect()
}

fn head(cyc: u8, number: u8) -> Head {
    Head {
        dest: OWN,
        src: CONCENTRATOR,
        cyc,
        seq: first_seq(cyc).wrapping_add(number),
    }
}

fn said(draft: &Draft) -> Vec<u8> {
    format!("1 {}", hex::encode(&draft.body())).into_bytes()
}
