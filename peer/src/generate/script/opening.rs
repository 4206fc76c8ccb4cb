//! The start of every script: a module without names, frames that come too early, then the
//! first assignments.

use super::super::random::Random;
use super::super::speech;
use super::stage::Stage;
use super::{faults, lines, names};
use crate::frame::{Head, SidAssignment, BROADCAST};
use crate::module::registers::{OUT_REP, RELEASE};
use crate::module::{first_seq, NO_SID};

/// The SIDs of concentrators by document 000, section 2.3.9.
pub const CONCENTRATORS: [u32; 8] = [
    0x11_EE11, 0x22_DD22, 0x33_CC33, 0x44_BB44, 0x55_AA55, 0x66_9966, 0x77_8877, 0x88_7788,
];

pub fn play(stage: &mut Stage) {
    stage.ticks(254);
    stage.ticks(1);
    for _ in 0..1 + stage.random.below(3) {
        too_early(stage);
        faults::line(stage);
        faults::typs(stage);
        lines::ports(stage);
    }
    first_tid(stage);
    refused_assignments(stage);
    stage.ticks(600);
    first_sid(stage);
    too_early(stage);
}

/// Syncs and requests while nobody is recorded, or nobody has sent a sync.
fn too_early(stage: &mut Stage) {
    let src = stage.random.pick(&[CONCENTRATORS[0], NO_SID, 0]);
    let cyc = stage.random.pick(&[0, 1, stage.agent().cycle]);
    if stage.agent().recorded.is_empty() {
        stage.sync(src, cyc);
        stage.sync(src, cyc);
    }
    let head = Head {
        dest: stage.own_sid(),
        src,
        cyc,
        seq: first_seq(cyc),
    };
    let address = stage.address();
    stage.send(&speech::read(address, head, 1, 0x13));
    stage.send(&speech::write(address, head, OUT_REP, &[RELEASE]));
    stage.inputs(1);
}

fn first_tid(stage: &mut Stage) {
    names::tids(stage);
    let tid = stage.random.pick(&[0x01, 0x42, 0x7C, 0x7F, 0x8E]);
    let iid = stage.registers().iid();
    stage.send(&speech::tid(BROADCAST, iid, tid));
}

/// None of these gives the module a SID.
fn refused_assignments(stage: &mut Stage) {
    let src = CONCENTRATORS[0];
    let sid = own_sid(&mut stage.random);
    for (src, mac, sid) in [
        (src, 1, NO_SID),
        (NO_SID, 1, sid),
        (src, 2, sid),
        (src, 1 << 56, sid),
        (NO_SID, 1, NO_SID),
        (src, 0, NO_SID),
    ] {
        let wrong = SidAssignment {
            mac,
            sid,
            ..stage.assignment(src)
        };
        let address = stage.address();
        stage.send(&speech::sid(address, wrong));
    }
}

pub fn first_sid(stage: &mut Stage) {
    let first = stage.random.pick(&CONCENTRATORS);
    let assignment = SidAssignment {
        sid: own_sid(&mut stage.random),
        ..stage.assignment(first)
    };
    let body = speech::sid(BROADCAST, assignment).body();
    stage.say_on(1, &body);
    stage.say_on(2, &body);
}

/// None of these is the same with its bytes the other way round.
fn own_sid(random: &mut Random) -> u32 {
    let any = random.below(0xFE) as u32;
    random.pick(&[1, 0x7D_7E00, 0x12_3456, NO_SID - 1, any << 16 | 0x7DFE])
}
