//! The traps of this bus, and a few rules that the cases on the bench leave out.

use super::module::{Bench, FIRST, OWN, SECOND};
use super::Tally;
use crate::frame::{Frame, Head};
use crate::generate::speech;

pub fn run(tally: &mut Tally) {
    repeated_sync(tally);
    deposed(tally);
    outputs_in_fallback(tally);
    refused_sync(tally);
    pending_release(tally);
    status(tally);
    silent(tally);
    records(tally);
}

/// A repeated sync does not let a write in twice.
fn repeated_sync(tally: &mut Tally) {
    let mut bench = Bench::running(10, 2, 5, 0x07);
    let first = speech::write(0x90, bench.head(), 0x80, &[1]);
    tally.check(bench.say(1, &first).number == 0, "a write is taken");
    tally.check(bench.sync(0x07) == 13, "a repeated sync is 13");
    tally.check(bench.say(2, &first).number == 13, "its write again is 13");
}

/// A recorded concentrator that is not the last one cannot write.
fn deposed(tally: &mut Tally) {
    let mut bench = Bench::running(10, 2, 5, 0x07);
    bench.ticks(9);
    tally.check(bench.sync_of(SECOND, 0x08) == 0, "another takes over");
    let late = Head {
        src: FIRST,
        ..bench.head()
    };
    let late = speech::write(0x90, late, 0x80, &[1]);
    tally.check(bench.say(1, &late).number == 10, "the deposed one is 10");
    tally.check(bench.write(0x80, &[2]) == 0, "the new one writes");
}

fn outputs_in_fallback(tally: &mut Tally) {
    let mut bench = Bench::running(10, 2, 5, 0x07);
    bench.write(0x80, &[0xFF; 64]);
    tally.check(bench.sync(0x20) == 12, "a wrong cycle is 12");
    let zero = bench.agent.registers.bytes[0x80..0xC0]
        .iter()
        .all(|&byte| byte == 0);
    tally.check(zero && !bench.runs(), "and fallback, outputs 00h");
    tally.check(bench.register(0x17) == 0xAA, "and no release");
    tally.check(bench.register(0x19) == 0x82, "and shown in STATUT");
    tally.check(bench.register(0x20) == 1, "and counted");
}

/// A refused sync does not restart the silence clock.
fn refused_sync(tally: &mut Tally) {
    let mut bench = Bench::running(10, 2, 5, 0x07);
    bench.ticks(19);
    tally.check(bench.sync_of(0x33_CC33, 0x08) == 10, "a stranger is 10");
    bench.ticks(1);
    tally.check(!bench.runs(), "a refused sync leaves the silence clock");
}

/// A release is not pending any more after n × t of silence.
fn pending_release(tally: &mut Tally) {
    for (ticks, expected) in [(509, true), (510, false)] {
        let mut bench = Bench::named();
        bench.sync(0x07);
        bench.write(0x17, &[0x55]);
        bench.ticks(ticks);
        bench.sync(0x30);
        let what = format!("a release after {ticks} ms of silence");
        tally.check(bench.runs() == expected, &what);
    }
}

/// STAT and data from 19h show the bits and the port once.
fn status(tally: &mut Tally) {
    let mut bench = Bench::running(10, 2, 5, 0x07);
    bench.agent.frame(1, &[], &mut [0; 545]);
    for (port, shown) in [(2, 0x60), (1, 0x00)] {
        let head = Head {
            seq: 0xF9_u8.wrapping_add(2 - port),
            ..bench.head()
        };
        let outcome = bench.say(port, &speech::read(0x90, head, 1, 0x19));
        let right = match bench.reply(outcome) {
            Some((Frame::SafeResponse { stat, .. }, data)) => stat == shown && data == [shown],
            _ => false,
        };
        tally.check(right, &format!("STATUT read on port {port}"));
    }
}

/// CONF bit 2: the effect remains, nothing is sent, the bits stay.
fn silent(tally: &mut Tally) {
    let mut bench = Bench::running(10, 2, 5, 0x07);
    bench.write(0x25, &[0x04]);
    bench.agent.frame(1, &[], &mut [0; 545]);
    bench.ticks(9);
    let outcome = bench.say(1, &speech::sync(FIRST, 0x08));
    let right = outcome.number == 0 && outcome.sent == 0 && bench.agent.cycle == 0x08;
    tally.check(right && bench.register(0x19) == 0x20, "CONF bit 2");
}

/// Eight concentrators, no ninth; the SID of the first stays.
fn records(tally: &mut Tally) {
    let mut bench = Bench::named();
    for src in 1..=6 {
        tally.check(bench.assign(src, OWN) == 0, "up to eight are recorded");
    }
    tally.check(bench.assign(7, OWN) == 18, "a ninth is 18");
    tally.check(bench.assign(7, OWN + 1) == 17, "another SID is 17");
    tally.check(bench.assign(FIRST, OWN) == 0, "a known one is acknowledged");
    tally.check(bench.assign(0xFF_FFFF, OWN) == 10, "no SRC is 10");
}
