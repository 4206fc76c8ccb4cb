//! TID and SID assignments after the first, and the record of concentrators.

use super::super::draft::Draft;
use super::super::speech;
use super::opening::CONCENTRATORS;
use super::stage::Stage;
use crate::frame::{Frame, SidAssignment};
use crate::module::registers::TYP;
use crate::module::{NO_SID, RECORDED_MAX};

/// Ends of the allowed runs, their neighbours, and others.
const TIDS: [u8; 16] = [
    0x00, 0x01, 0x02, 0x7C, 0x7D, 0x7E, 0x7F, 0x8D, 0x8E, 0x8F, 0x90, 0x91, 0xEF, 0xF0, 0xF8, 0xFF,
];

pub fn tids(stage: &mut Stage) {
    for _ in 0..3 {
        let (wish, any) = (stage.next_of("TIDs", &TIDS), stage.random.byte());
        let tid = stage.random.pick(&[wish, wish, wish, any]);
        tid_assignment(stage, tid);
    }
    let (wrong, right) = (
        stage.random.pick(&[0x7D, 0x8F]),
        stage.random.pick(&[5, 0x7F]),
    );
    tid_assignment(stage, wrong);
    tid_assignment(stage, right);
}

/// Then a frame at the address from before, and one at the new address.
fn tid_assignment(stage: &mut Stage, tid: u8) {
    let before = stage.own_tid();
    let (address, iid) = (stage.address(), stage.registers().iid());
    let sent = Draft {
        address: stage.random.pick(&[address, address, before]),
        ..speech::tid(address, iid, tid)
    };
    stage.send(&sent);
    if stage.random.one_in(3) {
        let head = stage.head();
        stage.send(&speech::read(before, head, 1, TYP));
        let (now, head) = (stage.own_tid(), stage.head());
        stage.send(&speech::read(now, head, 1, TYP));
    }
}

/// Assignments that a module with a SID may hear.
pub fn sids(stage: &mut Stage) {
    let known = stage.random.pick(&stage.agent().recorded.clone());
    let good = stage.assignment(known);
    let (mac, sid) = (good.mac, good.sid);
    let src = stranger(stage);
    let others = [
        (NO_SID, mac, sid),
        (known, mac.swap_bytes(), sid),
        (known, mac, NO_SID),
        (src, mac, NO_SID),
        (known, mac, sid ^ 1),
        (src, mac, sid ^ 0x80_0000),
    ];
    assign(stage, good);
    for _ in 0..2 {
        let (src, mac, sid) = stage.random.pick(&others);
        let other = SidAssignment {
            src,
            mac,
            sid,
            ..good
        };
        assign(stage, other);
    }
    if stage.agent().recorded.len() == RECORDED_MAX {
        assign(stage, SidAssignment { src, ..good });
        let src = src ^ 1;
        assign(stage, SidAssignment { src, ..good });
    }
}

fn assign(stage: &mut Stage, assignment: SidAssignment) {
    let address = stage.address();
    stage.send(&speech::sid(address, assignment));
}

/// Not recorded, and neither FFFFFFh.
pub fn stranger(stage: &mut Stage) -> u32 {
    let known = stage.random.pick(&stage.agent().recorded.clone());
    loop {
        let any = stage.random.next() as u32 & NO_SID;
        let near = known ^ 1 << stage.random.below(24);
        let listed = stage.random.pick(&CONCENTRATORS);
        let sid = stage.random.pick(&[any, near, near, listed, 0]);
        if sid != NO_SID && !stage.agent().recorded.contains(&sid) {
            return sid;
        }
    }
}

/// Records one more, unless there are `wanted` already.
pub fn record_up_to(stage: &mut Stage, wanted: usize) {
    if stage.agent().recorded.len() < wanted.min(RECORDED_MAX) {
        let src = stranger(stage);
        let assignment = stage.assignment(src);
        assign(stage, assignment);
    }
}

/// The form for SIL4 modules, which this one does not accept, with a right CRC and a wrong one.
pub fn sil4(stage: &mut Stage) -> Draft {
    let known = stage.random.pick(&stage.agent().recorded.clone());
    let first = stage.assignment(known);
    let frame = Frame::SidAssignmentSil4 {
        first,
        sid2: first.sid,
        src2: known,
    };
    Draft {
        address: stage.address(),
        content: crate::frame::content(&frame, &[]),
    }
}
