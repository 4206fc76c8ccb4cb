//! Cycle times of all lengths. One that is changed within a cycle counts from the next sync on.

use super::super::cycles::write_outputs;
use super::super::settings::set_limits;
use super::super::stage::Stage;
use super::some_reply;
use crate::module::registers::{OUTPUTS, TCYC};

const TIMES: [u8; 16] = [
    1, 255, 10, 2, 255, 1, 5, 254, 12, 3, 128, 1, 64, 255, 20, 100,
];

/// New ones in one cycle, replies before and after each; then syncs that show the last.
pub fn changed(stage: &mut Stage) {
    stage.heard_in_fallback(12);
    some_reply(stage);
    for _ in 0..1 + stage.random.below(3) {
        let time = stage.next_of("load times", &TIMES);
        stage.write(TCYC, &[time]);
        some_reply(stage);
    }
    for _ in 0..1 + stage.random.below(4) {
        stage.begin_cycle();
        some_reply(stage);
    }
}

/// Another one within the cycle, and the old one again before it ends.
pub fn there_and_back(stage: &mut Stage) {
    stage.heard_in_fallback(8);
    let before = stage.registers().tcyc();
    let other = stage.next_of("load times", &TIMES);
    for time in [other, before] {
        stage.write(TCYC, &[time]);
        some_reply(stage);
    }
    stage.begin_cycle();
}

/// Cycles as on a busy ring: all outputs are written and read in each, up to the clock end.
pub fn busy(stage: &mut Stage) {
    let time = stage.next_of("busy times", &TIMES);
    set_limits(stage, time, 3, 9);
    stage.reach_run();
    for _ in 0..3 + stage.random.below(4) {
        let first = *OUTPUTS.start() as u8;
        let image = [stage.random.pick(&[0x00, 0x7D, 0x7E, 0xFF]); 64];
        stage.heard_cycle(3);
        stage.write(first, &image);
        stage.read(64, first);
        stage.held(stage.cycle_left());
        stage.begin_cycle();
    }
    write_outputs(stage);
}
