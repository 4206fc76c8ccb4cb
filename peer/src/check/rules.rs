//! Rules over all values: writes by place and length in both modes, values, TIDs.

use super::module::Bench;
use super::Tally;
use crate::generate::speech;

pub fn run(tally: &mut Tally) {
    let fallback = Bench::named();
    let running = Bench::running(10, 2, 5, 0x07);
    for add in 0..=0xFF {
        places(tally, &fallback, add);
        places(tally, &running, add);
    }
    zeros(tally);
    releases(tally);
    tids(tally);
}

/// The spans as document 01 lists them, and whether the mode is RUN, if it matters.
fn expected(running: bool, first: usize, last: usize) -> bool {
    let inside = |low, high| low <= first && last <= high;
    inside(0x17, 0x17)
        || (inside(0x18, 0x18) && !running)
        || (inside(0x1A, 0x1D) && !running)
        || inside(0x1E, 0x24)
        || inside(0x25, 0x25)
        || (inside(0x80, 0xBF) && running)
}

/// Bytes of 55h, which every span accepts, in all lengths up to one more than the longest span, in
/// a cycle whose sync came one ms early.
fn places(tally: &mut Tally, start: &Bench, add: u8) {
    let right = (0..=65).all(|length| {
        let mut bench = start.clone();
        bench.ticks(9);
        let synced = bench.sync(0x08) == 0;
        let number = bench.write(add, &vec![0x55; length]);
        let place = add as usize;
        let taken = length > 0 && expected(start.runs(), place, place + length - 1);
        let there = bench.agent.registers.bytes.get(place..place + length);
        let written = there.is_some_and(|bytes| bytes.iter().all(|&byte| byte == 0x55));
        synced && number == if taken { 0 } else { 16 } && (written || !taken)
    });
    let mode = start.agent.mode;
    tally.check(right, &format!("writes at {add:02X}h in {mode:?}"));
}

/// 18h, 1Ah and 1Bh must not become 0.
fn zeros(tally: &mut Tally) {
    let cases: [(u8, &[u8], u8); 8] = [
        (0x18, &[0], 16),
        (0x1A, &[0], 16),
        (0x1B, &[0], 16),
        (0x1A, &[1, 0], 16),
        (0x1A, &[0, 1, 1, 1], 16),
        (0x1B, &[0, 1], 16),
        (0x1A, &[1, 1, 0, 0], 0),
        (0x1C, &[0, 0], 0),
    ];
    for (add, data, number) in cases {
        let mut bench = Bench::named();
        bench.sync(0x08);
        let answer = bench.write(add, data);
        tally.check(answer == number, &format!("{data:?} at {add:02X}h"));
    }
}

/// Of all values of 17h only 55h and AAh are accepted; AAh means fallback.
fn releases(tally: &mut Tally) {
    for value in 0..=0xFF {
        let mut bench = Bench::running(10, 2, 5, 0x07);
        let number = bench.write(0x17, &[value]);
        let taken = [0x55, 0xAA].contains(&value);
        let right = number == if taken { 0 } else { 16 } && bench.runs() == (value != 0xAA);
        tally.check(right, &format!("{value:02X}h at 17h"));
    }
}

fn tids(tally: &mut Tally) {
    for tid in 0..=0xFF {
        let mut bench = Bench::named();
        let number = bench.say(1, &speech::tid(0xFF, 2, tid)).number;
        let allowed = (1..=0x8E).contains(&tid) && tid != 0x7D && tid != 0x7E;
        let own = bench.register(0x13);
        let right = match allowed {
            true => number == 0 && own == tid,
            false => number == 17 && own == 0x8F,
        };
        tally.check(right, &format!("TID {tid:02X}h"));
    }
}
