//! Every ground of fallback, alone and several on one tick, and then what must leave 26h as it is.

use super::cycles::write_outputs;
use super::settings::{set_limits, set_reference, settle_reference};
use super::stage::Stage;
use crate::module::registers::{HOLD, OUT_REP, RELEASE};

/// In a cycle of 1 ms no sync misses its window.
const TIMES: [u8; 8] = [1, 2, 3, 8, 9, 16, 17, 40];

/// CNF_CYC and CNF_REP; then how many ms past the first clock end in RUN its last sync comes, or none
/// if that is the one that entered RUN.
type Limits = (u8, u8, Option<i32>);

/// One silence ends before the other; where there is a last sync, by one ms.
const SYNC_FIRST: [Limits; 4] = [(1, 2, None), (2, 5, None), (3, 9, None), (2, 3, Some(-1))];
const COMMAND_FIRST: [Limits; 4] = [(2, 1, None), (5, 2, None), (4, 3, None), (2, 3, Some(1))];
/// Both end on one tick.
const BOTH: [Limits; 4] = [(1, 1, None), (2, 2, None), (2, 3, Some(0)), (3, 4, Some(0))];

/// The ways out of RUN; the window twice, since few other scenes end so.
const WAYS: [fn(&mut Stage); 10] = [
    window,
    |stage| silence(stage, &SYNC_FIRST, false),
    |stage| silence(stage, &COMMAND_FIRST, true),
    wrong_cycle,
    |stage| silence(stage, &BOTH, false),
    window,
    |stage| silence(stage, &BOTH, true),
    order,
    |stage| silence(stage, &COMMAND_FIRST, false),
    |stage| silence(stage, &SYNC_FIRST, true),
];

/// DATL and ADD of reads that show 26h.
const READS: [(u8, u8); 7] = [
    (1, 0x26),
    (2, 0x25),
    (2, 0x26),
    (7, 0x20),
    (32, 0x10),
    (90, 0x26),
    (254, 0x02),
];

/// ADD and length of writes that cover 26h.
const WRITES: [(u8, usize); 5] = [(0x26, 1), (0x25, 2), (0x24, 3), (0x26, 2), (0x1E, 9)];

/// AD_REF and SZ_REF of sync replies that show 26h.
const REFERENCES: [(u8, u8); 5] = [
    (0x26, 0x01),
    (0x25, 0x02),
    (0x20, 0x07),
    (0x26, 0x5A),
    (0x00, 0xFE),
];

/// The next way out of RUN; fallback again, and RUN again.
pub fn passages(stage: &mut Stage) {
    let way = stage.next_of("ways out of RUN", &WAYS);
    way(stage);
    if stage.random.one_in(2) {
        look(stage);
    }
    again(stage);
    look(stage);
    stage.reach_run();
    look(stage);
}

/// The replies to syncs show 26h before and after.
pub fn references(stage: &mut Stage) {
    let (place, size) = stage.next_of("references to 26h", &REFERENCES);
    set_reference(stage, place, size);
    let way = stage.next_of("ways out of RUN", &WAYS);
    way(stage);
    stage.begin_cycle();
    stage.reach_run();
    stage.begin_cycle();
    settle_reference(stage);
}

/// Up to the limit that ends first, and one ms more.
fn silence(stage: &mut Stage, limits: &[Limits], marked: bool) {
    let time = stage.random.pick(&TIMES[marked as usize..]);
    let (sync, output, last) = stage.random.pick(limits);
    set_limits(stage, time, sync, output);
    stage.reach_run();
    if let Some(late) = last {
        let next = stage.agent().cycle.wrapping_add(1);
        let wait = (time as i32 + late) as u32;
        stage.ticks(wait.min(stage.patience()));
        stage.sync(stage.active(), next);
    }
    if marked {
        miss(stage);
    }
    stage.ticks(stage.patience());
    stage.ticks(1);
    stage.ticks(1);
}

/// A sync outside its window, in the last cycle that the limits leave.
fn miss(stage: &mut Stage) {
    let (time, now) = (stage.registers().tcyc(), stage.agent().in_cycle as u32);
    let start = (now + stage.patience()) / time as u32 * time as u32;
    let outside = time as usize - stage.agent().window_width() as usize;
    let place = start + stage.random.below(outside) as u32;
    stage.ticks(place.saturating_sub(now).min(stage.patience()));
    let next = stage.agent().cycle.wrapping_add(1);
    stage.sync(stage.active(), next);
}

/// Neither silence is near.
fn window(stage: &mut Stage) {
    let time = stage.random.pick(&TIMES[1..]);
    set_limits(stage, time, 3, 5);
    stage.reach_run();
    let lost = stage.random.below(2) as u32;
    let outside = time as usize - stage.agent().window_width() as usize;
    let place = stage.random.below(outside) as u32;
    stage.ticks(lost * time as u32 + place);
    let next = stage.agent().cycle.wrapping_add(1);
    stage.sync(stage.active(), next);
    stage.ticks(stage.cycle_left());
}

fn wrong_cycle(stage: &mut Stage) {
    stage.reach_run();
    write_outputs(stage);
    stage.wrong_cycle();
}

fn order(stage: &mut Stage) {
    stage.reach_run();
    write_outputs(stage);
    stage.order_fallback();
}

/// A read shows 26h, and a write does not change it.
fn look(stage: &mut Stage) {
    stage.heard_cycle(2);
    let (datl, add) = stage.next_of("reads of 26h", &READS);
    stage.read(datl, add);
    let (add, length) = stage.next_of("writes over 26h", &WRITES);
    let byte = stage.random.pick(&[0, 1, 2, 3, 4, 5, 6, 0xFF]);
    stage.write(add, &vec![byte; length]);
}

/// Fallback once more, at the sync limit or by an order; a release may be pending.
fn again(stage: &mut Stage) {
    let by_order = stage.random.one_in(2);
    let quiet = stage.agent().since_sync as u32 >= stage.agent().sync_limit();
    if by_order || quiet || stage.random.one_in(2) {
        stage.heard_cycle(2);
    }
    if stage.random.one_in(2) {
        stage.write(OUT_REP, &[RELEASE]);
    }
    if by_order {
        stage.write(OUT_REP, &[HOLD]);
        return;
    }
    let silence = stage.agent().since_sync as u32;
    stage.ticks(stage.agent().sync_limit().saturating_sub(silence));
}
