//! Numbers and names that a frame uses up: a request without which the next one is too far ahead or no repeat, a TID
//! without which an order reaches the module, the eighth concentrator without which a ninth is recorded.

use super::super::opening::CONCENTRATORS;
use super::super::stage::Stage;
use super::start::{cycles, limits, miss, name, names, once, run};
use crate::generate::draft::Draft;
use crate::generate::speech;
use crate::module::registers::{CONF, CPT_SEQ, HOLD, OUT_REP, RELEASE};

/// A request at this distance that changes no mode: a read, one with an error reply, a write, one that is refused.
fn idle(stage: &mut Stage, distance: u8) -> Draft {
    let (address, head) = (stage.address(), stage.head_at(distance));
    match stage.random.below(6) {
        0 => speech::read(address, head, 1, 0x19),
        1 => speech::read(address, head, 0, 0x80),
        2 => speech::write(address, head, CPT_SEQ, &[0]),
        3 => speech::write(address, head, CONF, &[0]),
        4 => speech::write(address, head, 0xBF, &[1, 2]),
        _ => speech::write(address, head, 0x10, &[0x82]),
    }
}

/// Two requests with numbers left out, the first of them once. Without it the second is four ahead or more, or just not.
fn ladder(stage: &mut Stage, add: u8, data: &[u8]) {
    let due = stage.agent().taken;
    let (first, second) = stage
        .random
        .pick(&[(0, 3), (1, 2), (2, 1), (3, 0), (3, 3), (2, 0)]);
    let step = idle(stage, due + first);
    once(stage, |stage| stage.send(&step));
    let (address, head) = (stage.address(), stage.head_at(due + first + 1 + second));
    stage.send(&speech::write(address, head, add, data));
}

pub fn ladder_to_release(stage: &mut Stage) {
    names(stage);
    limits(stage, &[2, 3], &[5]);
    stage.heard_in_fallback(8);
    ladder(stage, OUT_REP, &[RELEASE]);
    stage.begin_cycle();
    cycles(stage, 3);
}

/// The write that keeps RUN is the second of them.
pub fn ladder_to_outputs(stage: &mut Stage) {
    run(stage, &[4, 9], &[1, 2]);
    stage.begin_cycle();
    let some = stage.random.below(1 + stage.patience() as usize) as u32;
    stage.ticks(some.min(stage.cycle_left().saturating_sub(1)));
    stage.heard_cycle(8);
    let silent = stage.agent().since_output;
    ladder(stage, 0x80, &[1]);
    miss(stage, stage.agent().output_limit(), silent);
}

/// A request comes once, and then an order of fallback with its number or a smaller one.
pub fn shield(stage: &mut Stage) {
    run(stage, &[2, 3], &[5, 9]);
    cycles(stage, 3);
    stage.heard_cycle(8);
    let due = stage.agent().taken;
    let first = stage.random.below(5) as u8;
    let second = stage.random.below(1 + first as usize) as u8;
    let shield = idle(stage, due + first.min(3));
    once(stage, |stage| stage.send(&shield));
    let (address, head) = (stage.address(), stage.head_at(due + second.min(3)));
    stage.send(&speech::write(address, head, OUT_REP, &[HOLD]));
    cycles(stage, 3);
}

/// Another TID comes once, and then an order of fallback to the TID from before.
pub fn tid_shield(stage: &mut Stage) {
    run(stage, &[2, 3], &[5, 9]);
    let (before, iid) = (stage.own_tid(), stage.registers().iid());
    let tid = stage.random.pick(&[0x21, 0x22]);
    once(stage, |stage| {
        stage.send(&speech::tid(0x90, iid, tid));
    });
    stage.heard_cycle(1);
    let head = stage.head();
    stage.send(&speech::write(before, head, OUT_REP, &[HOLD]));
    cycles(stage, 3);
}

/// Eight are recorded, one of them by a frame that comes once; then a ninth is refused, and so is its sync.
pub fn eight(stage: &mut Stage) {
    let lone = stage.random.below(8);
    for (place, src) in CONCENTRATORS.into_iter().enumerate() {
        match place == lone {
            true => once(stage, |stage| name(stage, src)),
            false => name(stage, src),
        }
    }
    let ninth = 0x99_6699;
    name(stage, ninth);
    stage.reach_run();
    cycles(stage, 2);
    let cyc = stage
        .agent()
        .cycle
        .wrapping_add(stage.random.pick(&[5, 0x80]));
    stage.sync(ninth, cyc);
    cycles(stage, 2);
}
