//! What neither opens nor ends a cycle: clock ends, refused syncs, fallback, BAD lines. And cycles of one line each.

use super::super::cycles::write_outputs;
use super::super::manners::MODULES;
use super::super::names::stranger;
use super::super::stage::Stage;
use super::super::{lines, settings::set_limits};
use super::{assign_again, some_reply};
use crate::body;
use crate::frame::BROADCAST;
use crate::generate::draft::Draft;
use crate::generate::speech;
use crate::module::registers::{HOLD, OUT_REP, RELEASE};

/// One clock end after another; the module still sends.
pub fn clock_ends(stage: &mut Stage) {
    stage.heard_cycle(2);
    some_reply(stage);
    let some = 300 + stage.random.below(3000) as u32;
    let wait = stage.random.pick(&[600, some, 2000, 5000, 9000]);
    stage.held(wait);
    assign_again(stage);
    stage.read(1, 0x18);
    stage.held(1 + wait / 3);
    if stage.random.one_in(2) {
        assign_again(stage);
    }
    stage.begin_cycle();
}

/// Syncs that the module refuses in RUN, each with something sent after it. The last means fallback.
pub fn refused_syncs(stage: &mut Stage) {
    let time = stage.random.pick(&[10, 16, 40, 255]);
    set_limits(stage, time, 3, 9);
    stage.reach_run();
    stage.begin_cycle();
    write_outputs(stage);
    let cycle = stage.agent().cycle;
    let early = speech::sync(stage.active(), cycle.wrapping_add(1));
    let again = speech::sync(stage.active(), cycle);
    let unknown = speech::sync(stranger(stage), cycle.wrapping_add(1));
    let elsewhere = Draft {
        address: MODULES,
        ..early.clone()
    };
    let mut refused = vec![
        early.body(),
        again.body(),
        unknown.body(),
        elsewhere.body(),
        broken(&early),
    ];
    stage.random.shuffle(&mut refused);
    for body in &refused[..3] {
        stage.say(body);
        if stage.random.one_in(2) {
            some_reply(stage);
        }
    }
    let wrong = speech::sync(stage.active(), cycle.wrapping_add(2)).body();
    stage.say(&wrong);
    some_reply(stage);
    if stage.random.one_in(2) {
        stage.begin_cycle();
    }
}

/// A wrong safety CRC, the FCS right.
fn broken(sync: &Draft) -> Vec<u8> {
    let mut application = sync.application();
    application[6] ^= 1;
    body::enclose(BROADCAST, &application)
}

/// RUN ends within a cycle, by an order or by silence, and the cycle goes on.
pub fn fallback(stage: &mut Stage) {
    stage.reach_run();
    stage.heard_cycle(4);
    some_reply(stage);
    match stage.random.one_in(2) {
        true => drop(stage.write(OUT_REP, &[HOLD])),
        false => stage.held(stage.patience() + 1),
    }
    some_reply(stage);
    assign_again(stage);
    if stage.random.one_in(2) {
        stage.heard_cycle(2);
        stage.write(OUT_REP, &[RELEASE]);
        some_reply(stage);
    }
    stage.begin_cycle();
}

/// Among lines with replies, some that count and do nothing.
pub fn bad_lines(stage: &mut Stage) {
    stage.some_mode(6);
    some_reply(stage);
    match stage.random.below(4) {
        0 => lines::long(stage),
        1 => drop(stage.line(vec![b'2'; 1201])),
        _ => lines::bad(stage),
    }
    some_reply(stage);
}

/// One sync after another, on either port.
pub fn one_line_each(stage: &mut Stage) {
    stage.heard_in_fallback(1);
    for _ in 0..2 + stage.random.below(6) {
        let cyc = stage.next_cycle();
        let body = speech::sync(stage.active(), cyc).body();
        stage.say(&body);
    }
}
