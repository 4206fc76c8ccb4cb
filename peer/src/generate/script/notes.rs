//! Counters up to where they stop, and a module that may not send.

use super::super::speech;
use super::faults::{self, good};
use super::stage::Stage;
use super::{cycles, names, skips, turns};
use crate::module::registers::{CONF, CPT_FOR, CPT_SEQ, SILENT};

/// Each counter set near its end, then driven over it.
pub fn counters(stage: &mut Stage) {
    stage.some_mode(16);
    let start = stage.random.pick(&[0xFC, 0xFD, 0xFE, 0xFF]);
    stage.write(CPT_SEQ, &[start]);
    stage.write(CPT_FOR, &[start]);
    for _ in 0..3 {
        let unknown = good(stage).with(0, 0x08);
        stage.send(&unknown);
        let (address, ahead) = (stage.address(), stage.agent().taken + 4);
        let head = stage.head_at(ahead);
        stage.send(&speech::read(address, head, 1, CPT_SEQ));
    }
    stage.read(7, 0x1E);
    if stage.random.one_in(2) {
        stage.write(0x1E, &[0; 7]);
    }
    stage.read(8, 0x1D);
}

/// CONF with bit 2: effects remain, replies do not; then without it.
pub fn silent(stage: &mut Stage) {
    stage.some_mode(2);
    let rest = stage.random.byte();
    stage.write(CONF, &[rest | SILENT]);
    stage.read(1, CONF);
    stage.begin_cycle();
    stage.read(255, 0);
    let scene = stage.random.pick(&SILENT_SCENES);
    scene(stage);
    stage.heard_cycle(2);
    stage.write(CONF, &[rest & !SILENT]);
    let read = stage.due_read(2, 0x18).body();
    stage.say_on(2, &read);
}

/// What may happen meanwhile.
const SILENT_SCENES: [fn(&mut Stage); 6] = [
    cycles::steady,
    names::sids,
    turns::order,
    skips::first,
    faults::line,
    turns::cycle,
];
