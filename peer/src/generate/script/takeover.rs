//! Another recorded concentrator takes over; the deposed one still speaks.

use super::super::speech;
use super::cycles::{pass_time, write_outputs};
use super::manners::TRIES;
use super::stage::Stage;
use crate::frame::Head;
use crate::module::first_seq;
use crate::module::registers::{HOLD, OUT_REP};

pub fn in_run(stage: &mut Stage) {
    let Some(next) = stage.passive() else { return };
    stage.reach_run();
    write_outputs(stage);
    let (old, late) = (stage.active(), stage.head());
    if stage.random.one_in(2) {
        pass_time(stage);
    }
    stage.reach_window();
    let cyc = stage.next_cycle();
    stage.sync(next, cyc);
    late_writes(stage, old, late);
    write_outputs(stage);
    late_sync(stage, old);
    write_outputs(stage);
}

/// The fault of the notice: about CYC FFh a sync is lost, the clock steps over 255, the next
/// concentrator's sync comes on both ports, and the closing write of the deposed one comes late.
pub fn late_closing(stage: &mut Stage) {
    let Some(next) = stage.passive() else { return };
    stage.heard_in_fallback(1);
    let before = stage.random.pick(&[0xFC, 0xFD]);
    stage.sync(stage.active(), before);
    stage.reach_run();
    for _ in 0..TRIES {
        if stage.running() && stage.agent().cycle != 0xFF {
            stage.begin_cycle();
        }
    }
    write_outputs(stage);
    let (old, late) = (stage.active(), stage.head());
    stage.ticks(stage.cycle_left().min(stage.patience()));
    let cyc = stage.next_cycle();
    let sync = speech::sync(next, cyc).body();
    stage.say_on(1, &sync);
    stage.say_on(2, &sync);
    write_outputs(stage);
    late_writes(stage, old, late);
    stage.read(64, 0x80);
}

/// The closing write of the deposed one, in its own cycle and in the new one.
fn late_writes(stage: &mut Stage, old: u32, late: Head) {
    let address = stage.address();
    let now = Head {
        src: old,
        ..stage.head()
    };
    let order = stage.random.pick(&[(OUT_REP, HOLD), (0x80, 0xFF)]);
    for head in [late, now] {
        stage.send(&speech::write(address, head, order.0, &[order.1]));
    }
    if stage.random.one_in(2) {
        stage.send(&speech::read(address, now, 8, 0x80));
    }
}

/// A sync of the deposed one: of its last cycle, of this one, or of the next, now or in its window.
fn late_sync(stage: &mut Stage, old: u32) {
    if stage.random.one_in(2) {
        stage.reach_window();
    }
    let cycle = stage.agent().cycle;
    let step = stage.random.pick(&[0xFF, 0x00, 0x01, 0x01, 0x02]);
    stage.sync(old, cycle.wrapping_add(step));
}

/// In fallback two concentrators may send the same CYC: each begins the cycle anew.
pub fn in_fallback(stage: &mut Stage) {
    let Some(other) = stage.passive() else { return };
    stage.heard_in_fallback(3);
    let (first, cyc) = (stage.active(), stage.agent().cycle);
    stage.read(1, 0x17);
    stage.read(1, 0x19);
    for src in [other, other, first] {
        stage.sync(src, cyc);
        let head = Head {
            src,
            seq: first_seq(cyc),
            ..stage.head()
        };
        let address = stage.address();
        stage.send(&speech::read(address, head, 2, 0x18));
    }
}

/// All recorded ones in turn, one cycle each.
pub fn round(stage: &mut Stage) {
    stage.reach_run();
    for src in stage.agent().recorded.clone() {
        stage.reach_window();
        let cyc = stage.next_cycle();
        stage.sync(src, cyc);
        if stage.random.one_in(3) {
            write_outputs(stage);
        }
    }
}
