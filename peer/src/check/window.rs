//! The window of syncs in RUN, number 22, and the mark.

use super::host::refused;
use super::module::{Bench, FIRST, OWN, SECOND};
use super::Tally;
use crate::frame::Head;
use crate::generate::speech;
use crate::module::{Agent, Mode, REPLY_ROOM};

/// t and w, then the first ms of a cycle at which c + 1 is in its window and the last at which c is.
const WINDOWS: [(u8, u16, usize, usize); 10] = [
    (1, 1, 0, 1),
    (2, 1, 1, 1),
    (7, 1, 6, 1),
    (8, 1, 7, 1),
    (9, 1, 8, 1),
    (15, 1, 14, 1),
    (16, 2, 14, 2),
    (17, 2, 15, 2),
    (64, 8, 56, 8),
    (255, 31, 224, 31),
];

/// Bit 1 of STATUT.
const ESE: u8 = 0x02;

pub fn run(tally: &mut Tally) {
    for (t, w, first, last) in WINDOWS {
        let bench = Bench::running(t, 4, 9, 0xFE);
        let what = format!("w with TCYC {t}");
        tally.check(bench.agent.window_width() == w, &what);
        for lost in 0..3 {
            every_ms(tally, t, lost, first, last);
        }
    }
    order(tally);
    for (lost, step) in [(0, 1), (1, 1), (1, 0), (2, 1), (2, 0)] {
        nothing_else(tally, lost, step);
    }
    healed(tally);
    not_healed(tally);
    kept(tally);
    cleared(tally);
    with_silence(tally);
    in_fallback(tally);
    any_time_in_fallback(tally);
    unsound(tally);
}

/// In RUN at every ms of a cycle, so many syncs lost before it: the sync of this one and of the next.
fn every_ms(tally: &mut Tally, t: u8, lost: usize, first: usize, last: usize) {
    let mut bench = Bench::running(t, 4, 9, 0xFE);
    bench.ticks(lost * t as usize);
    let cycle = 0xFE_u8.wrapping_add(lost as u8);
    let (mut this, mut next) = (true, true);
    for ms in 0..t as usize {
        let expected = match lost {
            0 => 13,
            _ if ms <= last => 0,
            _ => 22,
        };
        this &= bench.clone().sync(cycle) == expected;
        let expected = if ms >= first { 0 } else { 22 };
        next &= bench.clone().sync(cycle.wrapping_add(1)) == expected;
        bench.ticks(1);
    }
    let what = format!("TCYC {t}, {lost} syncs lost");
    tally.check(this, &format!("{what}: CYC = c"));
    tally.check(next, &format!("{what}: CYC = c + 1"));
}

/// At a ms outside both windows: 10, 13 and 12 come before 22, and only 12 and 22 touch the mark.
fn order(tally: &mut Tally) {
    for mark in [0, 1] {
        for (src, cyc, number, left) in [
            (0x33_CC33, 0x08, 10, mark),
            (0x33_CC33, 0x20, 10, mark),
            (FIRST, 0x07, 13, mark),
            (SECOND, 0x07, 12, 0),
            (FIRST, 0x09, 12, 0),
            (FIRST, 0x06, 12, 0),
            (FIRST, 0x08, 22, 1),
            (SECOND, 0x08, 22, 1),
        ] {
            let mut bench = Bench::running(10, 3, 9, 0x07);
            bench.ticks(5);
            bench.agent.mark = mark;
            let right = bench.sync_of(src, cyc) == number && bench.agent.mark == left;
            let mode = bench.runs() == (number != 12);
            let what = format!("mark {mark}: CYC {cyc:02X} of {src:06X} is {number}");
            tally.check(right && mode, &what);
        }
    }
}

/// 22 sets bit 1 and the mark; all else stays, nothing is counted and nothing is sent.
fn nothing_else(tally: &mut Tally, lost: usize, step: u8) {
    for (port, mark, bits) in [(1, 0, 0x00), (2, 0, 0x20), (1, 1, 0x02), (2, 1, 0x00)] {
        let mut bench = Bench::running(16, 4, 9, 0x07);
        bench.write(0x80, &[0x11; 64]);
        bench.read(1, 0x10);
        bench.ticks(16 * lost + 5);
        bench.agent.mark = mark;
        bench.agent.registers[0x19] = bits;
        let mut wanted = bench.agent.clone();
        wanted.mark = 1;
        wanted.registers[0x19] = bits | ESE;
        let body = speech::sync(FIRST, wanted.cycle + step).body();
        let mut buffer = [0x5A; REPLY_ROOM];
        let outcome = bench.agent.frame(port, &body, &mut buffer);
        let right = (outcome.number, outcome.sent) == (22, 0) && bench.agent == wanted;
        let unsent = buffer.iter().all(|&byte| byte == 0x5A);
        let what = format!("22 after {lost} lost, c + {step}, port {port}, mark {mark}");
        tally.check(right && unsent, &what);
    }
}

/// In RUN, t 16, n 4, m 9, cycle 07h, marked at its ms 5.
fn marked() -> Bench {
    let mut bench = Bench::running(16, 4, 9, 0x07);
    bench.write(0x80, &[0x11; 64]);
    bench.ticks(5);
    bench.sync(0x08);
    bench
}

/// By the next sync in its window, on either port and of either source; the clock end is then harmless.
fn healed(tally: &mut Tally) {
    for (port, src, now) in [
        (1, FIRST, 14),
        (2, FIRST, 15),
        (1, SECOND, 15),
        (2, SECOND, 14),
    ] {
        let mut bench = marked();
        let before = bench.agent.mark == 1;
        bench.ticks(now - 5);
        let number = bench.say(port, &speech::sync(src, 0x08)).number;
        let after = number == 0 && bench.agent.mark == 0 && bench.runs();
        bench.ticks(16);
        let what = format!("healed on port {port} by {src:06X} at {now}");
        tally.check(before && after && bench.runs(), &what);
    }
    // In a cycle that is not heard, by its own sync.
    let mut bench = Bench::running(16, 4, 9, 0x07);
    bench.ticks(16);
    let right = bench.sync(0x09) == 22 && bench.agent.mark == 1;
    let healed = bench.sync(0x08) == 0 && bench.agent.mark == 0;
    bench.ticks(16);
    tally.check(right && healed && bench.runs(), "healed by CYC = c");
}

/// RUN to the last ms of the cycle; fallback at its end, which is an end as ever. A second 22
/// changes nothing.
fn not_healed(tally: &mut Tally) {
    for second in [None, Some(5), Some(8), Some(13)] {
        let mut bench = marked();
        for ms in 5..15 {
            if second == Some(ms) {
                tally.check(bench.sync(0x08) == 22, "a second 22");
            }
            bench.ticks(1);
        }
        let what = format!("not healed, second at {second:?}");
        tally.check(bench.runs() && bench.agent.mark == 1, &what);
        let mut wanted = bench.agent.clone();
        (wanted.mode, wanted.mark, wanted.since_output) = (Mode::Fallback, 0, 0);
        wanted.registers.bytes[0x80..0xC0].fill(0);
        wanted.registers[0x17] = 0xAA;
        wanted.registers[0x19] = 0x80 | ESE;
        wanted.registers[0x26] = 5;
        (wanted.cycle, wanted.heard, wanted.in_cycle, wanted.taken) = (0x08, false, 0, 0);
        wanted.since_sync = 16;
        bench.ticks(1);
        tally.check(bench.agent == wanted, &what);
    }
}

/// Ticks, requests taken and other refusals leave the mark, and so does a reply that clears bit 1.
fn kept(tally: &mut Tally) {
    let mut bench = marked();
    bench.ticks(3);
    tally.check(bench.agent.mark == 1, "the mark after ticks");
    let shown = bench.register(0x19) == ESE && bench.read(1, 0x19).0 == 0;
    let gone = shown && bench.register(0x19) == 0;
    tally.check(gone && bench.agent.mark == 1, "the mark after a reply");
    let right = bench.write(0x80, &[7]) == 0 && bench.write(0x26, &[7]) == 16;
    tally.check(right && bench.agent.mark == 1, "the mark after requests");
    let head = Head {
        dest: OWN,
        cyc: 0x06,
        ..bench.head()
    };
    let right = bench.say(1, &speech::read(0x90, head, 1, 0x10)).number == 12;
    tally.check(right && bench.agent.mark == 1, "the mark after 12");
    let mut application = speech::sync(FIRST, 0x08).application();
    application[6] ^= 1;
    let body = crate::body::enclose(0xFF, &application);
    let number = bench.agent.frame(1, &body, &mut [0; REPLY_ROOM]).number;
    tally.check(number == 9 && bench.agent.mark == 1, "the mark after 9");
    tally.check(bench.assign(SECOND, OWN) == 0, "an assignment");
    tally.check(bench.agent.mark == 1, "the mark after an assignment");
}

/// Every way into fallback clears it, the limits on silence without a clock end too.
fn cleared(tally: &mut Tally) {
    let ways: [(&str, fn(&mut Bench)); 5] = [
        ("sync silence", |bench| {
            bench.agent.since_sync = 63;
            bench.ticks(1);
        }),
        ("command silence", |bench| {
            bench.agent.since_output = 143;
            bench.ticks(1);
        }),
        ("wrong cycle", |bench| {
            bench.sync(0x20);
        }),
        ("order", |bench| {
            bench.write(0x17, &[0xAA]);
        }),
        ("the mark itself", |bench| bench.ticks(11)),
    ];
    for (what, way) in ways {
        let mut bench = marked();
        let before = bench.runs() && bench.agent.mark == 1;
        way(&mut bench);
        let right = before && !bench.runs() && bench.agent.mark == 0;
        tally.check(right, &format!("{what} clears the mark"));
        // Back in RUN it does no harm.
        bench.sync(0x30);
        bench.write(0x17, &[0x55]);
        bench.sync(0x31);
        bench.ticks(16);
        tally.check(bench.runs(), &format!("RUN again after {what}"));
    }
}

/// A marked clock end on the tick of a limit on silence leaves what the limit alone leaves.
fn with_silence(tally: &mut Tally) {
    for (n, m) in [(1, 9), (9, 1), (1, 1), (2, 9), (9, 2), (2, 2)] {
        let mut bench = Bench::running(16, n, m, 0x07);
        bench.ticks(16 * n.min(m) as usize - 11);
        let mut plain = bench.clone();
        let next = bench.agent.cycle + 1;
        let refused = bench.sync(next) == 22;
        bench.ticks(10);
        plain.ticks(10);
        let what = format!("n {n}, m {m}, marked");
        tally.check(refused && bench.runs() && bench.agent.mark == 1, &what);
        bench.ticks(1);
        plain.ticks(1);
        // 22 has set bit 1.
        plain.agent.registers[0x19] |= ESE;
        tally.check(!bench.runs() && bench.agent == plain.agent, &what);
    }
}

/// A state in fallback with the mark is sound; ticks past a clock end, and requests, go as without it.
/// An accepted sync clears it.
fn in_fallback(tally: &mut Tally) {
    let mut plain = Bench::named();
    plain.sync(0x07);
    plain.write(0x17, &[0x55]);
    let mut bench = plain.clone();
    bench.agent.mark = 1;
    let same = |bench: &Bench, plain: &Bench| {
        let mark = 1;
        let plain = plain.agent.clone();
        bench.agent == Agent { mark, ..plain }
    };
    for (what, act) in [
        (
            "a read",
            (|bench| drop(bench.read(1, 0x19))) as fn(&mut Bench),
        ),
        ("the last ms", |bench| bench.ticks(254)),
        ("the clock end", |bench| bench.ticks(1)),
        ("more ticks", |bench| bench.ticks(100)),
        ("a stranger", |bench| {
            bench.sync_of(0x33_CC33, 0x09);
        }),
    ] {
        act(&mut bench);
        act(&mut plain);
        let what = format!("marked in fallback: {what}");
        tally.check(same(&bench, &plain) && !bench.runs(), &what);
    }
    let right = bench.sync(0x55) == 0 && bench.runs() && bench.agent.mark == 0;
    tally.check(right, "marked in fallback: a sync clears the mark");
}

/// In fallback, released or not, a sync of any cycle is accepted at every ms.
fn any_time_in_fallback(tally: &mut Tally) {
    for (release, cyc) in [(0xAA, 0x08), (0x55, 0x08), (0xAA, 0x60), (0x55, 0x60)] {
        let mut bench = Bench::named();
        bench.sync(0x07);
        bench.write(0x18, &[16]);
        bench.write(0x1B, &[3]);
        bench.write(0x17, &[release]);
        let mut right = true;
        for _ in 0..48 {
            let mut tried = bench.clone();
            right &= tried.sync(cyc) == 0 && tried.runs() == (release == 0x55);
            bench.ticks(1);
        }
        let what = format!("CYC {cyc:02X} at any time in fallback, 17h {release:02X}");
        tally.check(right, &what);
    }
}

/// The mark is 0 or 1.
fn unsound(tally: &mut Tally) {
    let running = Bench::running(10, 2, 5, 0x07).agent;
    for sound in [running, Bench::named().agent] {
        for mark in 0..=0xFF {
            let agent = Agent {
                mark,
                ..sound.clone()
            };
            let what = format!("mark {mark} in {:?}", agent.mode);
            match mark {
                0 | 1 => tally.check(agent.sound(), &what),
                _ => refused(tally, &what, agent),
            }
        }
    }
}
