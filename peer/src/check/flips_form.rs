//! One flip on the wire that changes the unstuffed length: if neither FCS nor safety CRC were
//! asked, would a frame of a right form be left? Not of one that carries up to 64 data bytes, but
//! for safe responses with 6 or 7.

use super::Tally;
use crate::body::{Body, APPLICATION};
use crate::cases::KINDS;
use crate::flips::{bodies, choice, Good};
use crate::frame::{self, com, Frame, Head, Span};
use crate::generate::random::Random;
use crate::stuffing;

/// The most data bytes of a write that a module takes: all outputs.
const OUTPUTS: u8 = 64;
const RESPONSE: u8 = 0x05;
const CARRYING: [u8; 5] = [0x02, 0x04, RESPONSE, 0x06, 0x07];

pub fn run(tally: &mut Tally) {
    let random = &mut Random::new(41);
    for kind in 0..KINDS {
        for datl in 0..=OUTPUTS {
            let open = kind == RESPONSE && [6, 7].contains(&datl);
            let left = (0..6)
                .map(|_| left(&bodies::with_datl(random, kind, datl)))
                .sum::<usize>();
            let what = format!("one flip leaves no form: kind {kind:02X}, DATL {datl}");
            tally.check(open || left == 0, &what);
        }
    }
    // DATL 7Eh, sent as 7Dh 5Eh, becomes 7Fh.
    for kind in CARRYING {
        let what = format!("one flip leaves a form: kind {kind:02X}, DATL 126");
        tally.check(left(&bodies::with_datl(random, kind, 0x7E)) > 0, &what);
    }
    for (seq, datl) in [(0x07, 6), (0x70, 6), (0x06, 6), (0x07, 5)] {
        let right = (left(&answer(seq, datl)) > 0) == (seq != 0x06 && datl == 6);
        let what = format!("one flip in an answer: SEQ {seq:02X}, DATL {datl}");
        tally.check(right, &what);
    }
}

/// How many flips change the length and leave a right form.
fn left(good: &Good) -> usize {
    let mut left = 0;
    choice::every_one(&mut good.line.clone(), |damaged| {
        left += formed(good, damaged) as usize;
    });
    left
}

fn formed(good: &Good, damaged: &[u8]) -> bool {
    let Some(mut application) = stuffing::unstuff(&damaged[1..]) else {
        return false;
    };
    if 1 + application.len() == good.plain.len() {
        return false;
    }
    application.truncate(application.len().saturating_sub(2));
    let body = Body {
        address: damaged[0],
        application,
    };
    APPLICATION.contains(&body.application.len()) && frame::form(&body).is_ok()
}

/// An answer to a sync, with 7Eh as the last byte of SRC. If that becomes two bytes, SEQ is read as
/// COM, COM as DATL, DATL as ADD and ADD as a data byte.
fn answer(seq: u8, datl: u8) -> Good {
    let head = Head {
        dest: 0x01_0203,
        src: 0x04_057E,
        cyc: !seq,
        seq,
    };
    let frame = Frame::SafeResponse {
        head,
        com: com::SAFE_TO_SYNC,
        span: Span { datl, add: 0x80 },
        stat: 0x80,
    };
    let content = frame::content(&frame, &vec![0x11; datl as usize]);
    Good::of(0xF0, &frame::seal(content))
}
