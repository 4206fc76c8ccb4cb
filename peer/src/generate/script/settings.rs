//! The settings of the module: accepted in fallback, refused in RUN, and what replies they give.

use super::cycles;
use super::stage::Stage;
use crate::module::registers::{AD_REF, CNF_REP, CONF, OUT_REP, RELEASE, SILENT, TCYC};

const CYCLE_TIMES: [u8; 20] = [
    1, 2, 3, 4, 5, 7, 8, 9, 10, 12, 15, 16, 17, 20, 20, 24, 40, 50, 64, 255,
];
const SYNC_CYCLES: [u8; 8] = [1, 2, 2, 2, 3, 4, 5, 9];
const OUTPUT_CYCLES: [u8; 8] = [1, 2, 3, 5, 5, 6, 8, 255];

/// Writes that would set a limit to 0; the last two set none.
const NO_LIMITS: [(u8, &[u8]); 9] = [
    (0x18, &[0]),
    (0x1A, &[0]),
    (0x1A, &[0, 2]),
    (0x1A, &[5, 0]),
    (0x1B, &[0]),
    (0x1B, &[0, 0x80, 8]),
    (0x1A, &[0, 0, 0, 0]),
    (0x1C, &[0, 0]),
    (0x1B, &[2, 0, 0]),
];

/// AD_REF and SZ_REF at and beside the ends of what can be read.
const REFERENCES: [(u8, u8); 27] = [
    (0x80, 0x08),
    (0x80, 0x00),
    (0x00, 0x00),
    (0xFF, 0x00),
    (0x00, 0xFF),
    (0x01, 0xFF),
    (0xFF, 0xFF),
    (0x00, 0xFE),
    (0x01, 0xFE),
    (0x02, 0xFE),
    (0x03, 0xFE),
    (0x00, 0xFD),
    (0x03, 0xFD),
    (0xFF, 0x01),
    (0xFF, 0x02),
    (0xFE, 0x02),
    (0xFE, 0x03),
    (0x80, 0x80),
    (0x80, 0x81),
    (0xC0, 0x40),
    (0xC1, 0x40),
    (0x19, 0x01),
    (0x18, 0x02),
    (0x18, 0x01),
    (0x10, 0x20),
    (0x00, 0x19),
    (0x00, 0x1A),
];

/// Settings that would hide too much for too long do not stay: a module that may not send,
/// long limits, a reference that cannot be read.
pub fn tidy(stage: &mut Stage) {
    if stage.registers()[CONF] & SILENT != 0 && stage.random.one_in(2) {
        stage.heard_cycle(1);
        stage.write(CONF, &[0]);
    }
    let limit = stage.agent().sync_limit().max(stage.agent().output_limit());
    if limit > 600 && stage.random.one_in(4) {
        set_limits(stage, 10, 2, 5);
    }
    let (place, size) = (stage.registers()[AD_REF], stage.registers()[AD_REF + 1]);
    let readable = (1..=254).contains(&size) && place as u32 + size as u32 <= 256;
    if !readable && stage.random.one_in(4) {
        set_reference(stage, 0x18, 4);
    }
}

/// New limits, then some cycles with them.
pub fn change(stage: &mut Stage) {
    stage.heard_in_fallback(8);
    let time = stage.next_of("cycle times", &CYCLE_TIMES);
    let (sync, output) = (
        stage.random.pick(&SYNC_CYCLES),
        stage.random.pick(&OUTPUT_CYCLES),
    );
    set_limits(stage, time, sync, output);
    cycles::steady(stage);
}

/// In fallback, with room for two requests.
pub fn set_limits(stage: &mut Stage, time: u8, sync: u8, output: u8) {
    stage.heard_in_fallback(4);
    stage.write(TCYC, &[time]);
    match stage.random.below(3) {
        0 => {
            stage.write(CNF_REP, &[output]);
            stage.write(CNF_REP + 1, &[sync]);
        }
        _ => {
            stage.write(CNF_REP, &[output, sync]);
        }
    }
}

/// Limits of 0, which fallback does not accept, and any settings, which RUN does not accept.
pub fn refused(stage: &mut Stage) {
    stage.heard_in_fallback(8);
    for _ in 0..4 {
        let (add, data) = stage.next_of("no limits", &NO_LIMITS);
        stage.write(add, data);
    }
    stage.reach_run();
    stage.heard_cycle(4);
    let same = stage.registers().tcyc();
    let other = stage.random.byte();
    for (add, data) in [(TCYC, [same]), (TCYC, [other]), (0x1C, [0x80]), (0x1D, [8])] {
        stage.write(add, &data);
    }
}

/// Sync replies over references of all kinds; the last one may stay.
pub fn references(stage: &mut Stage) {
    for _ in 0..4 {
        let (place, size) = stage.next_of("references", &REFERENCES);
        set_reference(stage, place, size);
        stage.begin_cycle();
    }
    if stage.random.one_in(3) {
        stage.reach_run();
        stage.begin_cycle();
    }
    settle_reference(stage);
}

/// One that can be read, and stays for the scenes that follow.
pub fn settle_reference(stage: &mut Stage) {
    let (place, size) = stage.random.pick(&[(0x80, 8), (0x10, 0x20), (0x19, 1)]);
    set_reference(stage, place, size);
}

pub fn set_reference(stage: &mut Stage, place: u8, size: u8) {
    stage.heard_in_fallback(3);
    match stage.random.below(3) {
        0 => {
            stage.write(AD_REF, &[place]);
            stage.write(AD_REF + 1, &[size]);
        }
        _ => {
            stage.write(AD_REF, &[place, size]);
        }
    }
}

/// A cycle time smaller than the ms that are already gone: the next tick sees it, a sync does not.
pub fn shorter(stage: &mut Stage) {
    set_limits(stage, 20, 1, 5);
    stage.heard_in_fallback(4);
    stage.ticks(12);
    stage.write(TCYC, &[5]);
    stage.write(OUT_REP, &[RELEASE]);
    if stage.random.one_in(2) {
        stage.ticks(1);
    }
    stage.begin_cycle();
    stage.ticks(4);
    stage.ticks(1);
    set_limits(stage, 10, 2, 5);
}
