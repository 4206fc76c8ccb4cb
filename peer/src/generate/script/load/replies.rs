//! What a module sends: replies that need much stuffing, long ones, errors, acknowledgements, and more than a line carries.

use super::super::names;
use super::super::settings::{set_limits, set_reference, settle_reference};
use super::super::stage::Stage;
use super::assign_again;
use crate::hex;
use crate::module::registers::TCYC;

/// AD_REF and SZ_REF that cannot be read.
const UNREADABLE: [(u8, u8); 8] = [
    (0x80, 0),
    (0x00, 255),
    (0x80, 129),
    (0xFF, 2),
    (0x00, 0),
    (0x01, 255),
    (0x03, 254),
    (0xC1, 64),
];

/// DATL and ADD.
const ERRORS: [(u8, u8); 6] = [
    (0, 0x00),
    (255, 0x00),
    (2, 0xFF),
    (129, 0x80),
    (0, 0x7D),
    (255, 0x7E),
];

/// DATL and ADD of the longest reads.
const LONG: [(u8, u8); 5] = [
    (254, 0x02),
    (254, 0x00),
    (254, 0x01),
    (253, 0x03),
    (253, 0x00),
];

/// Inputs and outputs of 7Dh and 7Eh, read, and shown by the reply to the sync.
pub fn stuffed(stage: &mut Stage) {
    stuffed_inputs(stage);
    set_reference(stage, 0xC0, 64);
    stage.begin_cycle();
    stage.reach_run();
    stage.heard_cycle(4);
    let image = [stage.random.pick(&[0x7D, 0x7E]); 64];
    stage.write(0x80, &image);
    stage.read(64, 0x80);
    stage.read(128, 0x80);
    stage.read(1, 0xC0);
    stage.begin_cycle();
    settle_reference(stage);
}

fn stuffed_inputs(stage: &mut Stage) {
    let inputs: Vec<u8> = (0..64).map(|_| stage.random.pick(&[0x7D, 0x7E])).collect();
    stage.line(format!("I {}", hex::encode(&inputs)).into_bytes());
}

pub fn long(stage: &mut Stage) {
    stage.some_mode(4);
    for _ in 0..3 {
        let (datl, add) = stage.next_of("long reads", &LONG);
        stage.read(datl, add);
    }
}

/// More in one cycle than the line carries in TCYC.
pub fn flood(stage: &mut Stage) {
    let time = stage.random.pick(&[1, 1, 2, 5]);
    set_limits(stage, time, 9, 255);
    stuffed_inputs(stage);
    if stage.random.one_in(2) {
        stage.reach_run();
    }
    stage.begin_cycle();
    for _ in 0..stage.random.pick(&[8, 20, stage.limit()]) {
        let body = stage.due_read(254, 0x02).body();
        stage.say(&body);
    }
    stage.begin_cycle();
}

/// Error replies, to syncs and to reads.
pub fn errors(stage: &mut Stage) {
    let (place, size) = stage.next_of("unreadable", &UNREADABLE);
    set_reference(stage, place, size);
    for _ in 0..2 {
        stage.begin_cycle();
        let (datl, add) = stage.next_of("load errors", &ERRORS);
        stage.read(datl, add);
    }
    if stage.random.one_in(2) {
        stage.reach_run();
        stage.begin_cycle();
    }
    settle_reference(stage);
}

/// Assignments of known concentrators within a cycle, before and after its clock end.
pub fn acknowledged(stage: &mut Stage) {
    stage.some_mode(1);
    for _ in 0..1 + stage.random.below(3) {
        assign_again(stage);
    }
    names::record_up_to(stage, 8);
    if stage.random.one_in(2) {
        let clock_ends = stage.random.pick(&[1, 1, 4]);
        stage.ticks(clock_ends * stage.registers()[TCYC] as u32);
        assign_again(stage);
    }
}
