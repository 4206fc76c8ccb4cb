//! One frame comes once, and all others twice: a sync, the release, a name, a write.

use super::super::manners::TRIES;
use super::super::opening::CONCENTRATORS;
use super::super::stage::Stage;
use super::start::{cycles, limits, miss, name, names, once, run};
use crate::generate::speech;
use crate::module::registers::{CNF_CYC, CNF_REP, OUT_REP, RELEASE, TCYC};

/// Without it the silence would be too long, or just not.
pub fn sync(stage: &mut Stage) {
    run(stage, &[1, 2, 2, 2, 3], &[5, 9, 255]);
    cycles(stage, 5);
    stage.reach_window();
    let silent = stage.agent().since_sync as u32;
    once(stage, Stage::begin_cycle);
    miss(stage, stage.agent().sync_limit(), silent);
    cycles(stage, 4);
}

/// The sync that enters RUN, often as the last line.
pub fn entry(stage: &mut Stage) {
    names(stage);
    limits(stage, &[2, 3], &[5]);
    stage.heard_in_fallback(1);
    stage.write(OUT_REP, &[RELEASE]);
    once(stage, Stage::begin_cycle);
    if stage.random.one_in(3) {
        cycles(stage, 3);
    }
}

pub fn release(stage: &mut Stage) {
    names(stage);
    limits(stage, &[2, 3], &[5, 9]);
    stage.heard_in_fallback(1);
    once(stage, |stage| stage.write(OUT_REP, &[RELEASE]));
    stage.begin_cycle();
    cycles(stage, 5);
}

pub fn first_sid(stage: &mut Stage) {
    let first = stage.random.pick(&CONCENTRATORS);
    once(stage, |stage| name(stage, first));
    limits(stage, &[2, 3], &[5, 9]);
    stage.reach_run();
    cycles(stage, 5);
}

/// The next concentrator is recorded once, and then takes over.
pub fn second_sid(stage: &mut Stage) {
    run(stage, &[2, 3], &[9]);
    let next = stage.random.pick(&CONCENTRATORS);
    once(stage, |stage| name(stage, next));
    for _ in 0..1 + stage.random.below(3) {
        stage.reach_window();
        let cyc = stage.next_cycle();
        stage.sync(next, cyc);
        cycles(stage, 1);
    }
    miss(stage, stage.agent().sync_limit(), 0);
}

/// The requests behind it go to this TID.
pub fn tid(stage: &mut Stage) {
    names(stage);
    let (tid, iid) = (
        stage.random.pick(&[2, 0x42, 0x7C, 0x8E]),
        stage.registers().iid(),
    );
    once(stage, |stage| {
        stage.send(&speech::tid(0xFF, iid, tid));
    });
    limits(stage, &[2, 3], &[5, 9]);
    stage.heard_in_fallback(1);
    let head = stage.head();
    stage.send(&speech::write(tid, head, OUT_REP, &[RELEASE]));
    stage.begin_cycle();
    cycles(stage, 4);
}

/// Only this write is there between two limits.
pub fn output_write(stage: &mut Stage) {
    run(stage, &[4, 9, 255], &[1, 2, 3]);
    for _ in 0..TRIES {
        if stage.running() && stage.patience() > stage.cycle_left() && !stage.random.one_in(3) {
            stage.begin_cycle();
        }
    }
    let some = stage.random.below(1 + stage.patience() as usize) as u32;
    stage.ticks(some.min(stage.cycle_left().saturating_sub(1)));
    stage.heard_cycle(1);
    let silent = stage.agent().since_output;
    let (start, byte) = (stage.random.pick(&[0x80, 0xBF]), stage.random.byte());
    once(stage, |stage| stage.write(start, &[byte]));
    miss(stage, stage.agent().output_limit(), silent);
    if stage.running() && stage.random.one_in(2) {
        stage.heard_cycle(1);
        stage.write(start, &[byte]);
    }
}

/// One limit is made longer, once, and then needed.
pub fn setting(stage: &mut Stage) {
    names(stage);
    limits(stage, &[2, 3], &[2, 3]);
    let time = stage.registers().tcyc();
    let (sync, output) = (stage.registers().cnf_cyc(), stage.registers().cnf_rep());
    let (place, value) = stage.random.pick(&[
        (TCYC, time.saturating_mul(3)),
        (CNF_CYC, sync * 3),
        (CNF_REP, output * 3),
    ]);
    if place == CNF_REP {
        stage.write(CNF_CYC, &[9]);
    } else if place == CNF_CYC {
        stage.write(CNF_REP, &[9]);
    }
    let old = match place {
        CNF_REP => stage.agent().output_limit(),
        _ => stage.agent().sync_limit(),
    };
    stage.heard_in_fallback(1);
    once(stage, |stage| stage.write(place, &[value]));
    stage.reach_run();
    miss(stage, old, 0);
    cycles(stage, 2);
}
