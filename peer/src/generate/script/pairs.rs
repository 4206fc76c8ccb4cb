//! Two faults at once show which is asked first.

use super::super::draft::Draft;
use super::super::{sample, speech};
use super::faults::good;
use super::names::stranger;
use super::stage::Stage;
use crate::body;
use crate::frame::{Head, SidAssignment};
use crate::module::NO_SID;

const NO_FCS: [u8; 2] = [0x12, 0x34];

/// Wrong FCS, reserved or foreign address, unknown TYP, wrong length, wrong safety CRC.
pub fn outer(stage: &mut Stage) {
    let draft = good(stage);
    let reserved = sample::reserved_address(&mut stage.random);
    let foreign = stage.own_tid() ^ 0x03;
    let mut broken = draft.application();
    let last = broken.len() - 1;
    broken[last] ^= 0x40;
    let mut unknown = broken.clone();
    unknown[0] = 0xB4;
    let longer = [&broken[..], &[0x00]].concat();
    let bodies = [
        body::enclose_with(reserved, &broken, NO_FCS),
        body::enclose_with(draft.address, &unknown, NO_FCS),
        body::enclose(reserved, &unknown),
        body::enclose(foreign, &unknown),
        body::enclose(foreign, &longer),
        body::enclose(draft.address, &unknown),
        body::enclose(draft.address, &longer),
        body::enclose(foreign, &broken),
    ];
    for _ in 0..3 {
        let body = bodies[stage.random.below(bodies.len())].clone();
        stage.say(&body);
    }
}

/// Requests whose CRC, source, destination, cycle or turn are wrong two at a time.
pub fn requests(stage: &mut Stage) {
    stage.some_mode(4);
    stage.read(1, 0x10);
    let right = stage.head();
    let (src, dest) = (stranger(stage), right.dest ^ 1);
    let (cyc, seq) = (right.cyc.wrapping_add(1), right.seq.wrapping_sub(1));
    let heads = [
        Head { src, dest, ..right },
        Head { src, cyc, ..right },
        Head { src, seq, ..right },
        Head { dest, cyc, ..right },
        Head { dest, seq, ..right },
        Head { cyc, seq, ..right },
    ];
    for _ in 0..3 {
        let (address, head) = (stage.address(), stage.random.pick(&heads));
        // The write is outside the rules too.
        stage.send(&speech::write(address, head, 0x26, &[1]));
    }
    let mut application = stage.due_write(0x80, &[1]).with(4, 0x01).application();
    application[14] ^= 0x01;
    let address = stage.address();
    stage.say(&body::enclose(address, &application));
}

/// Assignments with two wrong fields, and a sync.
pub fn others(stage: &mut Stage) {
    let good = stage.assignment(stage.active());
    let (stranger, address) = (stranger(stage), stage.address());
    let (other_mac, other_sid) = (2, good.sid ^ 4);
    for (src, mac, sid) in [
        (NO_SID, other_mac, good.sid),
        (NO_SID, good.mac, other_sid),
        (good.src, other_mac, other_sid),
        (stranger, good.mac, other_sid),
        (stranger, other_mac, good.sid),
    ] {
        let wrong = SidAssignment {
            src,
            mac,
            sid,
            ..good
        };
        if stage.random.one_in(2) {
            stage.send(&speech::sid(address, wrong));
        }
    }
    stage.send(&speech::tid(address, 3, 0x7D));
    let sync = speech::sync(stranger, stage.agent().cycle);
    stage.send(&sync);
    stage.send(&Draft {
        address: 0x90,
        ..sync
    });
}
