//! The cases on the bench, P1 to P14; P4 to P7 are among the checks of stuffing and CRCs.

use super::module::{Bench, FIRST, OWN};
use super::Tally;
use crate::frame::{com, Frame, Head};
use crate::generate::speech;
use crate::module::{first_seq, Agent, Fixed, Mode};

pub fn run(tally: &mut Tally) {
    first_seqs(tally);
    wrong_stuffing(tally);
    first_cycle(tally);
    no_sync(tally);
    no_output(tally);
    wrap(tally);
    last_output(tally);
    reads(tally);
    many_requests(tally);
}

/// P1 to P3: by the rule, and as the first of the four SEQs that a fresh cycle takes.
fn first_seqs(tally: &mut Tally) {
    for (case, cyc, taken) in [
        ("P1", 0x05, [0xFB, 0xFC, 0xFD, 0xFE]),
        ("P2", 0x00, [0x00, 0x01, 0x02, 0x03]),
        ("P3", 0xFF, [0x01, 0x02, 0x03, 0x04]),
    ] {
        tally.check(first_seq(cyc) == taken[0], case);
        for tried in 0..=0xFF {
            let mut bench = Bench::named();
            bench.sync(cyc);
            let head = Head {
                dest: OWN,
                src: FIRST,
                cyc,
                seq: tried,
            };
            let number = bench.say(1, &speech::read(0xFF, head, 1, 0x10)).number;
            let expected = if taken.contains(&tried) { 0 } else { 14 };
            tally.check(number == expected, &format!("{case}, SEQ {tried:02X}"));
        }
    }
}

/// P5 and P6, by the frame call: number 2, and bit 5 of STATUT.
fn wrong_stuffing(tally: &mut Tally) {
    for length in [7, 8, 200, 543] {
        for (case, end) in [("P5", vec![0x7D, 0x31]), ("P6", vec![0x7D])] {
            let mut body = vec![0x11; length - end.len()];
            body.extend(end);
            let mut agent = Agent::power_up(1, 2, 0, Fixed::DOORS);
            let outcome = agent.frame(1, &body, &mut [0; 545]);
            let right = outcome.number == 2 && agent.registers[0x19] == 0xA0;
            tally.check(right, &format!("{case}, {length} bytes"));
        }
    }
}

/// P8.
fn first_cycle(tally: &mut Tally) {
    let mut agent = Agent::power_up(1, 2, 0, Fixed::DOORS);
    for tick in 1..=255 {
        agent.tick(&[0; 64]).expect("a sound state");
        let expected = if tick < 255 { 0 } else { 1 };
        tally.check(agent.cycle == expected, &format!("P8, tick {tick}"));
    }
}

/// P9.
fn no_sync(tally: &mut Tally) {
    let mut bench = Bench::running(10, 2, 5, 0x40);
    tally.check(bench.runs(), "P9, RUN first");
    bench.ticks(19);
    tally.check(bench.runs(), "P9, 19 ticks");
    bench.ticks(1);
    tally.check(!bench.runs(), "P9, 20 ticks");
}

/// P10, the syncs once just before the end of a cycle and once just after it.
fn no_output(tally: &mut Tally) {
    for first_wait in [9, 10] {
        let mut bench = Bench::running(10, 2, 5, 0xFD);
        let mut cyc = 0xFD_u8;
        for tick in 1..=50 {
            bench.ticks(1);
            let what = format!("P10, tick {tick}, first sync at {first_wait}");
            tally.check(bench.runs() == (tick < 50), &what);
            if tick % 10 == first_wait % 10 && tick < 50 {
                cyc = cyc.wrapping_add(1);
                tally.check(bench.sync(cyc) == 0, &what);
            }
        }
    }
}

/// P11.
fn wrap(tally: &mut Tally) {
    for (cyc, expected) in [(0x00, 0), (0x01, 12)] {
        let mut bench = Bench::running(10, 2, 5, 0xFF);
        bench.ticks(9);
        let ready = bench.runs() && bench.agent.heard && bench.agent.cycle == 0xFF;
        let right = bench.sync(cyc) == expected && bench.runs() == (expected == 0);
        tally.check(ready && right, &format!("P11, CYC {cyc:02X}"));
    }
}

/// P12.
fn last_output(tally: &mut Tally) {
    let mut bench = Bench::running(10, 2, 5, 0x07);
    tally.check(bench.write(0xBF, &[0x33]) == 0, "P12, one byte");
    tally.check(bench.register(0xBF) == 0x33, "P12, the byte");
    tally.check(bench.write(0xBF, &[0x44, 0x44]) == 16, "P12, two bytes");
    let kept = bench.register(0xBF) == 0x33 && bench.register(0xC0) == 0;
    tally.check(
        kept && bench.agent.mode == Mode::Run,
        "P12, nothing written",
    );
}

/// P13.
fn reads(tally: &mut Tally) {
    let mut bench = Bench::running(10, 2, 5, 0x07);
    let (number, reply) = bench.read(254, 0x02);
    let served = reply.is_some_and(|(frame, data)| {
        response(frame) == Some((com::SAFE_TO_READ, 254, 0x02)) && data.len() == 254
    });
    tally.check(number == 0 && served, "P13, 254 from 02h");
    let (number, reply) = bench.read(255, 0x00);
    let error =
        reply.is_some_and(|(frame, _)| response(frame) == Some((com::ERROR_TO_READ, 0, 0x00)));
    tally.check(number == 0 && error, "P13, 255 from 00h");
}

/// COM, DATL and ADD.
fn response(frame: Frame) -> Option<(u8, u8, u8)> {
    match frame {
        Frame::SafeResponse { com, span, .. } => Some((com, span.datl, span.add)),
        _ => None,
    }
}

/// P14, the module's limit being 64, and the same with 16.
fn many_requests(tally: &mut Tally) {
    for limit in [64, 16] {
        let mut bench = Bench::limited(limit);
        for request in 1..=limit + 1 {
            let (number, reply) = bench.read(1, 0x10);
            let expected = if request <= limit { 0 } else { 15 };
            let right = number == expected && reply.is_some() == (expected == 0);
            tally.check(right, &format!("P14, limit {limit}, request {request}"));
        }
    }
}
