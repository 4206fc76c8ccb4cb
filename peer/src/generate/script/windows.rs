//! Syncs at the edges of their window in RUN, and what becomes of the mark.

use super::super::speech;
use super::cycles::write_outputs;
use super::settings::set_limits;
use super::stage::Stage;
use crate::module::registers::{HOLD, OUT_REP, STATUT};

/// In a cycle of 1 ms every sync is in its window.
const TIMES: [u8; 12] = [1, 2, 7, 8, 9, 15, 16, 17, 24, 40, 64, 255];

/// CNF_CYC and CNF_REP: either silence first, or both at once.
const SILENCES: [(u8, u8); 9] = [
    (1, 5),
    (2, 5),
    (3, 9),
    (5, 1),
    (5, 2),
    (4, 3),
    (1, 1),
    (2, 2),
    (3, 3),
];

/// A sync at some ms of a cycle, told from t and w.
#[derive(Clone, Copy)]
struct Edge {
    unheard: bool,
    /// CYC is c and so much.
    step: u8,
    place: fn(i32, i32) -> i32,
}

const fn edge(unheard: bool, step: u8, place: fn(i32, i32) -> i32) -> Edge {
    Edge {
        unheard,
        step,
        place,
    }
}

const EDGES: [Edge; 12] = [
    edge(false, 1, |t, w| t - w - 1),
    edge(false, 1, |t, w| t - w),
    edge(false, 1, |t, _| t - 1),
    edge(false, 1, |_, _| 0),
    edge(true, 1, |t, w| t - w - 1),
    edge(true, 1, |t, w| t - w),
    edge(true, 1, |t, _| t - 1),
    edge(true, 1, |_, _| 0),
    edge(true, 0, |_, w| w - 1),
    edge(true, 0, |_, w| w),
    edge(true, 0, |_, w| w + 1),
    edge(true, 0, |_, _| 0),
];

/// Some edges with a new TCYC.
pub fn edges(stage: &mut Stage) {
    let time = stage.next_of("window times", &TIMES);
    let sync = stage.random.pick(&[2, 2, 3, 4, 9]);
    let output = stage.random.pick(&[5, 9, 255]);
    set_limits(stage, time, sync, output);
    for _ in 0..4 {
        stage.reach_run();
        one(stage);
    }
}

fn one(stage: &mut Stage) {
    let edge = stage.next_of("edges", &EDGES);
    stage.begin_cycle();
    write_outputs(stage);
    if edge.unheard {
        lose_syncs(stage);
    }
    let (time, width) = (stage.registers().tcyc(), stage.agent().window_width());
    let place = (edge.place)(time as i32, width as i32).clamp(0, time as i32 - 1);
    let wait = (place as u32).saturating_sub(stage.agent().in_cycle as u32);
    stage.ticks(wait.min(stage.patience()));
    let cyc = stage.agent().cycle.wrapping_add(edge.step);
    match stage.sync(stage.active(), cyc) {
        22 => aftermath(stage),
        _ => write_outputs(stage),
    }
}

/// The clock ends one cycle, or as many as there may be.
fn lose_syncs(stage: &mut Stage) {
    let cycles = stage.registers().cnf_cyc() as usize - 1;
    let lost = 1 + stage.random.below(cycles.max(1)) as u32;
    let time = stage.registers().tcyc() as u32;
    let wait = stage.cycle_left() + (lost - 1) * time;
    stage.ticks(wait.min(stage.patience()));
}

/// The mark is set.
fn aftermath(stage: &mut Stage) {
    match stage.random.below(10) {
        0 | 1 => healed(stage),
        2 | 3 => clock_end(stage),
        4 => {
            once_more(stage);
            healed_or_not(stage);
        }
        5 | 6 => {
            requests(stage);
            healed_or_not(stage);
        }
        7 => wrong_cycle(stage),
        8 => {
            stage.write(OUT_REP, &[HOLD]);
            stage.ticks(stage.cycle_left());
        }
        _ => {}
    }
}

fn healed_or_not(stage: &mut Stage) {
    match stage.random.one_in(2) {
        true => healed(stage),
        false => clock_end(stage),
    }
}

/// A sync in its window, on either port, perhaps of another source; then the clock end, which
/// does no harm.
fn healed(stage: &mut Stage) {
    stage.reach_window();
    let (active, other) = (stage.active(), stage.passive());
    let src = stage
        .random
        .pick(&[active, active, other.unwrap_or(active)]);
    let cyc = stage.next_cycle();
    let body = speech::sync(src, cyc).body();
    stage.say(&body);
    stage.ticks(stage.cycle_left().min(stage.patience()));
}

/// One ms less, to the ms, or one more.
fn clock_end(stage: &mut Stage) {
    let left = stage.cycle_left();
    match stage.random.below(3) {
        0 => {
            stage.ticks(left.saturating_sub(1));
            stage.ticks(1);
        }
        1 => stage.ticks(left),
        _ => stage.ticks(left + 1),
    }
    if stage.random.one_in(2) {
        stage.begin_cycle();
    }
}

/// The sync of the next cycle again, on both ports or a little later.
fn once_more(stage: &mut Stage) {
    let cyc = stage.agent().cycle.wrapping_add(1);
    let body = speech::sync(stage.active(), cyc).body();
    stage.say_on(1, &body);
    let before = stage.cycle_left().saturating_sub(1) as usize;
    let wait = stage.random.pick(&[0, before.min(1), before / 2]);
    stage.ticks(wait as u32);
    stage.say_on(2, &body);
}

/// None of these clears the mark; in an unheard cycle they are refused.
fn requests(stage: &mut Stage) {
    stage.write(0x80, &[0x5A, 0xA5]);
    stage.read(1, STATUT);
    if stage.random.one_in(2) {
        let body = speech::sync(stage.active(), stage.agent().cycle).body();
        stage.say(&body);
    }
    stage.read(2, STATUT - 1);
}

fn wrong_cycle(stage: &mut Stage) {
    let ahead = stage.random.pick(&[2, 0x80, 0xFF]);
    let cyc = stage.agent().cycle.wrapping_add(ahead);
    stage.sync(stage.active(), cyc);
    stage.ticks(stage.cycle_left());
}

/// A marked clock end on the tick of a limit on silence.
pub fn silence(stage: &mut Stage) {
    let time = stage.next_of("marked silences", &TIMES[1..]);
    let (sync, output) = stage.random.pick(&SILENCES);
    set_limits(stage, time, sync, output);
    stage.reach_run();
    let cycles = sync.min(output) as u32 - 1;
    stage.ticks(cycles * time as u32);
    let before = time as usize - stage.agent().window_width() as usize;
    let place = stage.random.below(before);
    stage.ticks(place as u32);
    let cyc = stage.agent().cycle.wrapping_add(1);
    stage.sync(stage.active(), cyc);
    clock_end(stage);
}
