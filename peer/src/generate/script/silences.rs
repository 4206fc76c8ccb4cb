//! Silence of both kinds, up to the limit to the tick, and past it.

use super::super::draft::Draft;
use super::super::{damage, speech};
use super::cycles::{self, write_outputs};
use super::manners::TRIES;
use super::names::stranger;
use super::settings::set_limits;
use super::stage::Stage;
use crate::body;
use crate::frame::BROADCAST;
use crate::module::registers::{CONF, OUT_REP, RELEASE};

/// None of these is an accepted write into the outputs.
const NO_OUTPUT_WRITES: [(u8, &[u8]); 7] = [
    (OUT_REP, &[RELEASE]),
    (CONF, &[0]),
    (0x1E, &[0; 7]),
    (0x24, &[3]),
    (0x81, &[]),
    (0xBF, &[1, 2]),
    (0x7F, &[1, 2]),
];

/// No sync any more: RUN to the last tick but one, fallback at the last.
pub fn sync(stage: &mut Stage) {
    let (time, cycles) = (
        stage.random.pick(&[1, 3, 10, 20]),
        stage.random.pick(&[1, 2, 3]),
    );
    set_limits(stage, time, cycles, 9);
    cycles::steady(stage);
    stage.reach_run();
    stage.begin_cycle();
    write_outputs(stage);
    if stage.random.one_in(2) {
        let some = stage.random.below(1 + stage.patience() as usize) as u32;
        stage.ticks(some);
        refused_sync(stage);
    }
    stage.ticks(stage.patience());
    match stage.random.below(4) {
        0 => stage.begin_cycle(),
        1 => refused_sync(stage),
        _ => {}
    }
    stage.ticks(1);
    stage.ticks(1);
}

/// A sync that is no sync for the module: it must not restart the clock.
fn refused_sync(stage: &mut Stage) {
    let cyc = stage.next_cycle();
    let good = speech::sync(stage.active(), cyc);
    let copy = stage.agent().heard && stage.random.one_in(2);
    let body = match stage.random.below(4) {
        _ if copy => speech::sync(stage.active(), stage.agent().cycle).body(),
        0 => speech::sync(stranger(stage), cyc).body(),
        1 => Draft {
            address: 0x90,
            ..good
        }
        .body(),
        2 => {
            let mut application = good.application();
            application[6] ^= 1;
            body::enclose(BROADCAST, &application)
        }
        _ => damage::longer(&good.body(), 0x7D),
    };
    stage.say(&body);
}

/// Syncs on time, or as late as the window lets them, but no output write: RUN to the last tick but one, fallback at the last.
pub fn outputs(stage: &mut Stage) {
    let (time, cycles) = (
        stage.random.pick(&[2, 5, 10]),
        stage.random.pick(&[1, 2, 5]),
    );
    set_limits(stage, time, 2, cycles);
    stage.reach_run();
    write_outputs(stage);
    wait_without_outputs(stage);
    match stage.random.below(5) {
        0 => write_outputs(stage),
        1 => stage.begin_cycle(),
        _ => {}
    }
    stage.ticks(1);
    stage.ticks(1);
}

/// Up to one ms before the limit; writes elsewhere do not count.
fn wait_without_outputs(stage: &mut Stage) {
    for _ in 0..TRIES {
        if stage.agent().since_output + 1 >= stage.agent().output_limit() {
            return;
        }
        let cycle = stage.registers().tcyc() as u32;
        let late = cycle + stage.agent().window_width() as u32;
        let wish = stage.random.pick(&[cycle, late]);
        let step = wish.min(stage.patience());
        stage.ticks(step);
        if stage.agent().since_output + 1 < stage.agent().output_limit() || step == 0 {
            stage.begin_cycle();
        }
        if stage.random.one_in(2) {
            let (add, data) = stage.next_of("no output writes", &NO_OUTPUT_WRITES);
            stage.write(add, data);
        }
    }
}

/// Nothing but lines of inputs: RUN to the last but one, fallback at the last.
pub fn inputs_alone(stage: &mut Stage) {
    let (time, sync, output) = (
        stage.random.pick(&[1, 2, 5, 10]),
        stage.random.pick(&[1, 2, 3]),
        stage.random.pick(&[1, 2, 9]),
    );
    set_limits(stage, time, sync, output);
    stage.reach_run();
    stage.inputs(stage.patience());
    match stage.random.below(4) {
        0 => stage.begin_cycle(),
        1 => write_outputs(stage),
        _ => {}
    }
    stage.inputs(2);
    stage.ticks(1);
    stage.heard_cycle(1);
    stage.read(64, 0xC0);
}

/// A release that is pending ends with the sync limit, not before.
pub fn pending_release(stage: &mut Stage) {
    if stage.agent().sync_limit() > 2000 || stage.random.one_in(2) {
        set_limits(stage, 10, 2, 5);
    }
    stage.heard_in_fallback(1);
    stage.write(OUT_REP, &[RELEASE]);
    let left = stage
        .agent()
        .sync_limit()
        .saturating_sub(stage.agent().since_sync as u32);
    stage.ticks(left.saturating_sub(1));
    if !stage.random.one_in(3) {
        stage.ticks(1);
    }
    stage.begin_cycle();
    stage.begin_cycle();
}

/// A sync of a wrong cycle ends RUN; it does not restart the clock for the release after it.
pub fn after_refusal(stage: &mut Stage) {
    set_limits(stage, 10, 2, 5);
    stage.reach_run();
    stage.begin_cycle();
    let some = 1 + stage.random.below(8) as u32;
    stage.ticks(some);
    let wrong = stage.agent().cycle.wrapping_add(2);
    let body = speech::sync(stage.active(), wrong).body();
    stage.say(&body);
    stage.write(OUT_REP, &[RELEASE]);
    let left = 20 - some;
    stage.ticks(left - 1);
    if stage.random.one_in(2) {
        stage.ticks(1);
    }
    stage.begin_cycle();
}

/// A long wait, longer than any limit and than the clock of the syncs counts.
pub fn long(stage: &mut Stage) {
    let wait = stage.random.pick(&[1000, 5000, 60_000]);
    stage.ticks(wait);
    if stage.random.one_in(4) {
        stage.ticks(60_000);
    }
    stage.begin_cycle();
}
