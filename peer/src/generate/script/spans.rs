//! Writes at the edges of every span, and all values of 17h.

use super::super::sample;
use super::floods;
use super::stage::Stage;
use crate::module::registers::OUT_REP;

/// First and last register of each span that can be written.
const SPANS: [(u8, u8); 6] = [
    (0x17, 0x17),
    (0x18, 0x18),
    (0x1A, 0x1D),
    (0x1E, 0x24),
    (0x25, 0x25),
    (0x80, 0xBF),
];

/// Each span in fallback and in RUN, in an order that mixes both.
const PLAYS: [usize; 12] = [0, 3, 4, 7, 8, 11, 1, 2, 5, 6, 9, 10];

const ALL_BYTES: [u8; 256] = {
    let mut bytes = [0; 256];
    let mut place = 0;
    while place < 256 {
        bytes[place] = place as u8;
        place += 1;
    }
    bytes
};

/// Starts of writes that belong to no span.
const OUTSIDE: [u8; 14] = [
    0x00, 0x07, 0x08, 0x10, 0x13, 0x14, 0x16, 0x19, 0x26, 0x50, 0x7F, 0xC0, 0xFE, 0xFF,
];

/// One span in one mode: one before, first, last, one past, crossing each end and both, the
/// whole, nothing.
pub fn edges(stage: &mut Stage) {
    let play = stage.next_of("spans", &PLAYS);
    let (first, last) = SPANS[play / 2];
    let whole = (last - first) as usize + 1;
    match play % 2 {
        0 => stage.reach_fallback(),
        _ => stage.reach_run(),
    }
    for (start, length) in [
        (first - 1, 1),
        (first, 1),
        (last, 1),
        (last + 1, 1),
        (first - 1, 2),
        (last, 2),
        (first, whole),
        (first, whole + 1),
        (first - 1, whole + 1),
        (first - 1, whole + 2),
        (first, 0),
        (last, 0),
    ] {
        stage.heard_cycle(1);
        let data = data(stage, length);
        stage.write(start, &data);
    }
}

pub fn outside(stage: &mut Stage) {
    stage.some_mode(6);
    for _ in 0..3 {
        let start = stage.next_of("outside", &OUTSIDE);
        let length = stage.random.pick(&[0, 1, 1, 2, 8, 255]);
        let data = data(stage, length);
        stage.write(start, &data);
    }
}

/// Bytes that 17h accepts, so that only the place can be wrong, or any.
fn data(stage: &mut Stage, length: usize) -> Vec<u8> {
    let byte = stage.random.pick(&[0x55, 0x55, 0xAA]);
    match stage.random.below(3) {
        0 => sample::bytes(&mut stage.random, length),
        _ => vec![byte; length],
    }
}

/// The next values of 17h, as many as one cycle takes, then one request too many.
pub fn release_values(stage: &mut Stage) {
    stage.some_mode(1);
    stage.begin_cycle();
    for _ in 0..stage.limit() {
        let value = stage.next_of("values of 17h", &ALL_BYTES);
        let body = stage.due_write(OUT_REP, &[value]).body();
        stage.say(&body);
    }
    floods::one_more(stage);
}
