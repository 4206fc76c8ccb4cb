//! A frame that leads to fallback and comes once. What follows is for a module in fallback: in RUN it would end RUN.

use super::super::manners::TRIES;
use super::super::stage::Stage;
use super::start::{cycles, once, run};
use crate::generate::speech;
use crate::module::registers::{HOLD, OUT_REP, RELEASE};
use crate::module::MARKED;

/// A release, and a sync that only fallback accepts.
fn back(stage: &mut Stage) {
    stage.heard_cycle(1);
    stage.write(OUT_REP, &[RELEASE]);
    let step = stage.random.pick(&[5, 0x80, 0xFD]);
    let cyc = stage.agent().cycle.wrapping_add(step);
    stage.sync(stage.active(), cyc);
    cycles(stage, 3);
}

/// Number 12.
pub fn wrong_cycle(stage: &mut Stage) {
    run(stage, &[2, 3], &[5, 9]);
    cycles(stage, 3);
    stage.heard_cycle(1);
    once(stage, Stage::wrong_cycle);
    back(stage);
}

/// AAh to 17h.
pub fn order(stage: &mut Stage) {
    run(stage, &[2, 3], &[5, 9]);
    cycles(stage, 3);
    stage.heard_cycle(1);
    once(stage, |stage| stage.write(OUT_REP, &[HOLD]));
    back(stage);
}

/// A sync outside its window, if there is such a time.
fn miss_window(stage: &mut Stage) {
    stage.begin_cycle();
    let early = stage.agent().cycle.wrapping_add(1);
    if !stage.agent().in_window(early) {
        once(stage, |stage| stage.sync(stage.active(), early));
    }
}

/// Number 22: the mark ends RUN with the cycle, and then the cycle is heard again.
pub fn window(stage: &mut Stage) {
    run(stage, &[2, 3], &[5, 9]);
    miss_window(stage);
    stage.ticks(stage.cycle_left());
    let cyc = stage.agent().cycle;
    stage.sync(stage.active(), cyc);
    back(stage);
}

/// Number 22, and a sync in its window that clears the mark; it comes once.
pub fn marked(stage: &mut Stage) {
    run(stage, &[2, 3], &[5, 9]);
    miss_window(stage);
    for _ in 0..TRIES {
        if stage.agent().mark == MARKED {
            let wait = stage.cycle_left().saturating_sub(1);
            stage.ticks(wait.min(stage.patience()));
            let cyc = stage.agent().cycle.wrapping_add(1);
            let body = speech::sync(stage.active(), cyc).body();
            stage.say(&body);
        }
    }
    let wait = stage.cycle_left().min(stage.patience());
    stage.ticks(wait);
    cycles(stage, 2);
}
