//! A module that may not send: cycles with nothing on the line, and cycles in which that begins or ends.

use super::super::stage::Stage;
use super::{assign_again, some_reply};
use crate::module::registers::{CONF, SILENT};

/// Some whole cycles without a reply, whatever is asked.
pub fn several(stage: &mut Stage) {
    stage.some_mode(4);
    some_reply(stage);
    stage.write(CONF, &[SILENT]);
    for _ in 0..2 + stage.random.below(4) {
        some_reply(stage);
        stage.begin_cycle();
    }
    assign_again(stage);
    stage.heard_cycle(3);
    stage.write(CONF, &[0]);
    if !stage.random.one_in(3) {
        some_reply(stage);
    }
    stage.begin_cycle();
}

/// All in one cycle: heard, not heard, heard again.
pub fn within(stage: &mut Stage) {
    stage.some_mode(8);
    let rest = stage.random.byte();
    for conf in [rest | SILENT, rest & !SILENT] {
        stage.read(4, 0x24);
        stage.write(CONF, &[conf]);
    }
    some_reply(stage);
}
