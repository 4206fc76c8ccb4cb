//! How these scripts begin, go on and wait: names, limits, RUN, some cycles, a frame that comes once.

use super::super::cycles::write_outputs;
use super::super::opening::CONCENTRATORS;
use super::super::settings::set_limits;
use super::super::stage::{Copies, Stage};
use crate::frame::{SidAssignment, BROADCAST};
use crate::generate::speech;
use crate::script::TICKS_MAX;

const SIDS: [u32; 4] = [1, 0x7D_7E00, 0x12_3456, 0xFF_FFFE];

/// In ms. The longer ones are rare, since a script is played many times.
const CYCLE_TIMES: [u8; 12] = [1, 2, 5, 8, 10, 10, 16, 20, 20, 40, 100, 255];

/// What is said within comes on one port only.
pub fn once<T>(stage: &mut Stage, act: impl FnOnce(&mut Stage) -> T) -> T {
    let before = stage.copies;
    stage.copies = Copies::Never;
    let outcome = act(stage);
    stage.copies = before;
    outcome
}

/// The concentrator gives the module its SID, or is recorded beside another.
pub fn name(stage: &mut Stage, src: u32) {
    let sid = match stage.agent().recorded[..] {
        [] => stage.random.pick(&SIDS),
        _ => stage.own_sid(),
    };
    let assignment = SidAssignment {
        sid,
        ..stage.assignment(src)
    };
    stage.send(&speech::sid(BROADCAST, assignment));
}

/// Some ticks, a SID, and now and then a TID or another concentrator.
pub fn names(stage: &mut Stage) {
    match stage.random.below(120) {
        0 => stage.held(TICKS_MAX),
        1..=40 => {
            let wait = stage.random.pick(&[1, 3, 254, 255, 256, 600]);
            stage.ticks(wait);
        }
        _ => {}
    }
    let first = stage.random.pick(&CONCENTRATORS);
    name(stage, first);
    if stage.random.one_in(3) {
        let (tid, iid) = (stage.random.pick(&[1, 5, 0x7F]), stage.registers().iid());
        stage.send(&speech::tid(BROADCAST, iid, tid));
    }
    if stage.random.one_in(4) {
        let second = stage.random.pick(&CONCENTRATORS);
        name(stage, second);
    }
}

/// Names, and RUN with one of these limits.
pub fn run(stage: &mut Stage, syncs: &[u8], outputs: &[u8]) {
    names(stage);
    limits(stage, syncs, outputs);
    stage.reach_run();
}

/// TCYC and one of these limits.
pub fn limits(stage: &mut Stage, syncs: &[u8], outputs: &[u8]) {
    let time = stage.random.pick(&CYCLE_TIMES);
    let (sync, output) = (stage.random.pick(syncs), stage.random.pick(outputs));
    set_limits(stage, time, sync, output);
}

/// Up to so many cycles, each with its sync and now and then with a write or a read.
pub fn cycles(stage: &mut Stage, most: usize) {
    for _ in 0..stage.random.below(most + 1) {
        stage.begin_cycle();
        match stage.random.below(4) {
            0 | 1 if stage.running() => write_outputs(stage),
            2 => drop(stage.read(4, 0x18)),
            _ => {}
        }
    }
}

/// So many ms that a limit, of which some have gone by, is reached without what came just now; or one less, or some more.
/// Never so many that RUN ends.
pub fn miss(stage: &mut Stage, limit: u32, gone: u32) {
    let left = limit.saturating_sub(gone);
    let more = stage.random.below(1 + gone as usize) as u32;
    let less = left.saturating_sub(1);
    let wish = stage.random.pick(&[left, left, left, less, left + more]);
    stage.ticks(wish.min(stage.patience()));
}
