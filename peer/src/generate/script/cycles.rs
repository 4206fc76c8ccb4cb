//! Cycles in RUN: syncs early, on time and late, output writes, reads.

use super::super::{sample, speech};
use super::manners::TRIES;
use super::settings::set_limits;
use super::stage::Stage;
use crate::module::registers::{OUTPUTS, OUT_REP, RELEASE};

/// Some cycles as an installation would have them.
pub fn steady(stage: &mut Stage) {
    stage.reach_run();
    for _ in 0..4 + stage.random.below(5) {
        one(stage);
    }
}

fn one(stage: &mut Stage) {
    pass_time(stage);
    stage.begin_cycle();
    write_outputs(stage);
    match stage.random.below(8) {
        // Not if RUN would end by it.
        0 => stage.inputs(stage.patience().min(1)),
        1 | 2 => {
            stage.read(8, 0x80);
        }
        3 => {
            stage.write(OUT_REP, &[RELEASE]);
        }
        4 => stage.echo(),
        _ => {}
    }
}

/// Up to the end of the cycle or one ms less, or beyond; never so long that RUN would end.
pub fn pass_time(stage: &mut Stage) {
    let cycle = stage.registers().tcyc() as u32;
    let left = stage.cycle_left();
    let some = stage.random.below(left as usize + 1) as u32;
    let wish = stage.random.pick(&[
        0,
        some,
        left.saturating_sub(1),
        left,
        left,
        left + 1,
        left + cycle,
        left + cycle / 2,
    ]);
    stage.ticks(wish.min(stage.patience()));
}

/// Any part of the outputs, their ends more often.
pub fn write_outputs(stage: &mut Stage) {
    stage.heard_cycle(1);
    let start = match stage.random.below(3) {
        0 => *OUTPUTS.start(),
        1 => *OUTPUTS.end(),
        _ => OUTPUTS.start() + stage.random.below(64),
    };
    let room = OUTPUTS.end() - start + 1;
    let length = 1 + stage.random.below(room);
    let data = sample::bytes(&mut stage.random, length);
    stage.write(start as u8, &data);
}

/// From a CYC before the wrap to one after it, all in RUN. The step over the wrap is made by
/// a sync or by the clock.
pub fn wrap(stage: &mut Stage) {
    stage.heard_in_fallback(1);
    let before = stage.random.pick(&[0xFC, 0xFD, 0xFE]);
    stage.sync(stage.active(), before);
    stage.reach_run();
    for _ in 0..TRIES {
        if stage.running() && stage.agent().cycle >= 0xFC {
            one(stage);
        }
    }
    one(stage);
    edge(stage);
}

/// A heard cycle FFh up to its last ms: 00h is accepted, 01h or FFh again is not.
fn edge(stage: &mut Stage) {
    stage.heard_in_fallback(1);
    stage.sync(stage.active(), 0xFD);
    stage.reach_run();
    for _ in 0..TRIES {
        if stage.running() && stage.agent().cycle != 0xFF {
            stage.begin_cycle();
        }
    }
    let last = stage.registers().tcyc() as u32 - 1;
    stage.ticks(last.min(stage.patience()));
    let cyc = stage.random.pick(&[0x00, 0x00, 0x01, 0xFE, 0xFF]);
    let body = speech::sync(stage.active(), cyc).body();
    stage.say_on(1, &body);
    stage.say_on(2, &body);
}

/// More than 256 cycles in RUN without a break. Each sync of the second round is byte for byte
/// one of the first. In cycles of 1 ms each sync is in its window.
pub fn marathon(stage: &mut Stage) {
    set_limits(stage, 1, 9, 255);
    stage.reach_run();
    for step in 0..260 {
        if step % 16 == 0 {
            let some = stage.random.below(1 + stage.patience().min(4) as usize);
            stage.ticks(some as u32);
            write_outputs(stage);
        }
        let next = stage.agent().cycle.wrapping_add(1);
        let body = speech::sync(stage.active(), next).body();
        stage.say(&body);
    }
    steady(stage);
}
