//! Requests that skip numbers: near the first of a cycle and about the limit, with CPT_SEQ near its end, and
//! then the numbers skipped, which come late.

use super::super::draft::Draft;
use super::super::speech;
use super::stage::Stage;
use crate::frame::Head;
use crate::module::registers::{CPT_SEQ, HOLD, OUT_REP, RELEASE, STATUT};
use crate::module::SKIPPED_MAX;

/// How many numbers are skipped; four are too many.
const AHEAD: [u8; 4] = [1, 2, 3, 4];

/// How many are taken before, or how many the limit leaves.
const NEAR: [u8; 5] = [0, 1, 2, 3, 4];

/// CPT_SEQ before a skip; more often near its end.
const COUNTS: [u8; 7] = [0x00, 0xFC, 0xFD, 0x7F, 0xFE, 0xFB, 0xFF];

type Request = fn(u8, Head) -> Draft;

/// Served, an error reply, accepted writes, and writes outside the rules. NEAR has five entries, AHEAD four
/// and this list nine: no two of these numbers have a common divisor above 1, so going through the three
/// lists side by side meets every combination.
const REQUESTS: [Request; 9] = [
    |address, head| speech::read(address, head, 8, STATUT),
    |address, head| speech::write(address, head, 0x80, &[0xEE, 0x7E]),
    |address, head| speech::write(address, head, 0x26, &[1]),
    |address, head| speech::read(address, head, 1, CPT_SEQ),
    |address, head| speech::write(address, head, OUT_REP, &[RELEASE]),
    |address, head| speech::write(address, head, 0x80, &[]),
    |address, head| speech::write(address, head, CPT_SEQ, &[0xFE]),
    |address, head| speech::read(address, head, 255, 0x00),
    |address, head| speech::write(address, head, OUT_REP, &[HOLD]),
];

/// Of each sort one, on the way to the limit.
const STEPS: [Request; 3] = [REQUESTS[0], REQUESTS[1], REQUESTS[2]];

/// What a late one would do, were it taken.
const LATE: [Request; 4] = [
    |address, head| speech::write(address, head, 0x80, &[0xBB; 64]),
    |address, head| speech::write(address, head, OUT_REP, &[HOLD]),
    |address, head| speech::write(address, head, CPT_SEQ, &[0x00]),
    |address, head| speech::read(address, head, 8, STATUT),
];

/// At each k near 0, in two cycles.
pub fn first(stage: &mut Stage) {
    stage.some_mode(1);
    stage.write(CPT_SEQ, &[0x00]);
    for _ in 0..2 {
        stage.begin_cycle();
        for _ in 0..stage.next_of("taken before a skip", &NEAR) {
            stage.read(1, 0x10);
        }
        let due = stage.agent().taken;
        let ahead = stage.next_of("skips near the first", &AHEAD);
        let request = stage.next_of("requests near the first", &REQUESTS);
        skip(stage, ahead, request);
        late(stage, due);
        stage.read(8, STATUT);
    }
}

/// At each k near the limit. After 15 a due one below the limit can still be taken.
pub fn last(stage: &mut Stage) {
    stage.some_mode(1);
    stage.write(CPT_SEQ, &[0x00]);
    stage.begin_cycle();
    let left = stage.next_of("left by the limit", &NEAR);
    reach(stage, stage.limit() - left);
    let due = stage.agent().taken;
    let ahead = stage.next_of("skips near the last", &AHEAD);
    let request = stage.next_of("requests near the last", &REQUESTS);
    skip(stage, ahead, request);
    stage.read(8, STATUT);
    let (ahead, request) = (stage.random.pick(&AHEAD), stage.random.pick(&REQUESTS));
    skip(stage, ahead, request);
    late(stage, due);
    stage.write(0x80, &[0x44]);
}

/// CPT_SEQ up to where it stops.
pub fn counts(stage: &mut Stage) {
    stage.some_mode(16);
    for _ in 0..2 {
        set_count(stage);
        for _ in 0..2 {
            let (ahead, request) = (stage.random.pick(&AHEAD), stage.random.pick(&REQUESTS));
            skip(stage, ahead, request);
        }
    }
    stage.read(8, STATUT);
    stage.write(CPT_SEQ, &[0x00]);
}

fn set_count(stage: &mut Stage) {
    let start = stage.next_of("counts before a skip", &COUNTS);
    stage.write(CPT_SEQ, &[start]);
}

fn skip(stage: &mut Stage, ahead: u8, request: Request) {
    let number = stage.agent().taken + ahead;
    let (address, head) = (stage.address(), stage.head_at(number));
    stage.send(&request(address, head));
}

/// Up to that k, skipping as many numbers as may be; the last request sets CPT_SEQ anew.
fn reach(stage: &mut Stage, wanted: u8) {
    for _ in 0..wanted {
        let left = wanted.saturating_sub(stage.agent().taken);
        if left <= 1 {
            break;
        }
        let request = stage.random.pick(&STEPS);
        skip(stage, (left - 2).min(SKIPPED_MAX), request);
    }
    set_count(stage);
}

/// One of the numbers that have gone by since `due` was due, on both ports; `due` itself if none has.
fn late(stage: &mut Stage, due: u8) {
    let passed = stage.agent().taken.saturating_sub(due).max(1);
    let number = due + stage.random.below(passed as usize) as u8;
    let (address, head) = (stage.address(), stage.head_at(number));
    let request = stage.next_of("late requests", &LATE);
    let body = request(address, head).body();
    stage.say_on(1, &body);
    stage.say_on(2, &body);
}
