//! What one tick brings up: the grounds of fallback, the tick before each silence, the ends of cycles.

use super::grounds;
use crate::module::registers::OUT_REP;
use crate::module::{Agent, Mode};

pub fn events(before: &Agent, after: &Agent) -> Vec<String> {
    let (ran, runs) = (before.mode == Mode::Run, after.mode == Mode::Run);
    let left = ran && !runs;
    let ended = before.registers[OUT_REP] != after.registers[OUT_REP];
    let sync_next = after.since_sync as u32 + 1 >= after.sync_limit();
    let output_next = after.since_output + 1 >= after.output_limit();
    let others = [
        ("pending release ended by silence", !left && ended),
        ("RUN, one tick before sync silence", runs && sync_next),
        ("RUN, one tick before command silence", runs && output_next),
        ("end of a cycle in RUN", ran && after.cycle != before.cycle),
        (
            "wrap in RUN by the clock",
            ran && after.cycle < before.cycle,
        ),
    ];
    let came = others.into_iter().filter(|&(_, came)| came);
    let mut events = grounds::of_tick(before, after);
    events.extend(came.map(|(what, _)| what.to_string()));
    events
}
