//! Numbers that a request skips: up to three. They are counted and shown before what the request does, and
//! one that comes later is 13.

use super::module::{Bench, FIRST, OWN};
use super::Tally;
use crate::frame::{Frame, Head, Span};
use crate::generate::draft::Draft;
use crate::generate::speech;
use crate::module::{Agent, Mode, REPLY_ROOM};

/// Bit 1 of STATUT.
const ESE: u8 = 0x02;

/// The limit and k; then, with 0, 1, 2, 3 and 4 numbers skipped, 0 where the request is taken and else the
/// answer.
const TURNS: [(u8, u8, [u8; 5]); 24] = [
    (16, 0, [0, 0, 0, 0, 14]),
    (16, 1, [0, 0, 0, 0, 14]),
    (16, 2, [0, 0, 0, 0, 14]),
    (16, 3, [0, 0, 0, 0, 14]),
    (16, 4, [0, 0, 0, 0, 14]),
    (16, 12, [0, 0, 0, 0, 14]),
    (16, 13, [0, 0, 0, 15, 14]),
    (16, 14, [0, 0, 15, 15, 14]),
    (16, 15, [0, 15, 15, 15, 14]),
    (16, 16, [15, 15, 15, 15, 14]),
    (64, 0, [0, 0, 0, 0, 14]),
    (64, 1, [0, 0, 0, 0, 14]),
    (64, 2, [0, 0, 0, 0, 14]),
    (64, 3, [0, 0, 0, 0, 14]),
    (64, 4, [0, 0, 0, 0, 14]),
    (64, 13, [0, 0, 0, 0, 14]),
    (64, 15, [0, 0, 0, 0, 14]),
    (64, 16, [0, 0, 0, 0, 14]),
    (64, 19, [0, 0, 0, 0, 14]),
    (64, 60, [0, 0, 0, 0, 14]),
    (64, 61, [0, 0, 0, 15, 14]),
    (64, 62, [0, 0, 15, 15, 14]),
    (64, 63, [0, 15, 15, 15, 14]),
    (64, 64, [15, 15, 15, 15, 14]),
];

/// CPT_SEQ before a request; then after one that skips 0, 1, 2 and 3, and after 14.
const COUNTS: [(u8, [u8; 5]); 6] = [
    (0, [0, 1, 2, 3, 1]),
    (251, [251, 252, 253, 254, 252]),
    (252, [252, 253, 254, 255, 253]),
    (253, [253, 254, 255, 255, 254]),
    (254, [254, 255, 255, 255, 255]),
    (255, [255, 255, 255, 255, 255]),
];

/// A request; its answer when it is taken, and what it then does to a module in RUN.
type Kind = (&'static str, fn(Head) -> Draft, u8, fn(&mut Agent));

const KINDS: [Kind; 10] = [
    ("a read", |head| speech::read(0x90, head, 8, 0x19), 0, shown),
    (
        "a read with error 55h",
        |head| speech::read(0x90, head, 255, 0x00),
        0,
        shown,
    ),
    (
        "an output write",
        |head| speech::write(0x90, head, 0xBF, &[0x5A]),
        0,
        |agent| {
            agent.registers[0xBF] = 0x5A;
            agent.since_output = 0;
        },
    ),
    (
        "a write to 20h",
        |head| speech::write(0x90, head, 0x20, &[0x30]),
        0,
        |agent| agent.registers[0x20] = 0x30,
    ),
    (
        "a write over 20h",
        |head| speech::write(0x90, head, 0x1E, &[0, 0, 0x31, 0, 0, 0, 0]),
        0,
        |agent| agent.registers[0x20] = 0x31,
    ),
    (
        "AAh to 17h",
        |head| speech::write(0x90, head, 0x17, &[0xAA]),
        0,
        ordered,
    ),
    (
        "55h to 17h",
        |head| speech::write(0x90, head, 0x17, &[0x55]),
        0,
        |_| {},
    ),
    (
        "a write to 26h",
        |head| speech::write(0x90, head, 0x26, &[1]),
        16,
        |_| {},
    ),
    (
        "a write to 18h",
        |head| speech::write(0x90, head, 0x18, &[9]),
        16,
        |_| {},
    ),
    (
        "a write of no byte",
        |head| speech::write(0x90, head, 0x20, &[]),
        16,
        |_| {},
    ),
];

/// After a sent reply STATUT keeps only bit 7.
fn shown(agent: &mut Agent) {
    agent.registers[0x19] &= 0x80;
}

fn ordered(agent: &mut Agent) {
    (agent.mode, agent.since_output) = (Mode::Fallback, 0);
    agent.registers.bytes[0x80..0xC0].fill(0);
    agent.registers[0x17] = 0xAA;
    agent.registers[0x19] |= 0x80;
    agent.registers[0x26] = 4;
}

/// The limit, k, numbers counted from the first of the cycle with the answers to reads of them, one after
/// another, and CPT_SEQ at the end.
type Course = (u8, u8, &'static [(u8, u8)], u8);

const COURSES: [Course; 6] = [
    (16, 13, &[(16, 15), (13, 0), (14, 0), (15, 0), (16, 15)], 0),
    (64, 61, &[(64, 15), (61, 0), (62, 0), (63, 0), (64, 15)], 0),
    (16, 15, &[(18, 15), (17, 15), (16, 15), (15, 0)], 0),
    (64, 63, &[(66, 15), (65, 15), (64, 15), (63, 0)], 0),
    (
        16,
        14,
        &[
            (16, 15),
            (17, 15),
            (18, 14),
            (15, 0),
            (14, 13),
            (16, 15),
            (19, 15),
            (20, 14),
        ],
        3,
    ),
    (
        64,
        62,
        &[
            (64, 15),
            (65, 15),
            (66, 14),
            (63, 0),
            (62, 13),
            (64, 15),
            (67, 15),
            (68, 14),
        ],
        3,
    ),
];

/// CYC and k; then the SEQs of the due request and of four past it, and the answers to reads of them.
const WRAPS: [(u8, u8, [u8; 5], [u8; 5]); 4] = [
    (0x02, 0, [0xFE, 0xFF, 0x00, 0x01, 0x02], [0, 0, 0, 0, 14]),
    (0x04, 2, [0xFE, 0xFF, 0x00, 0x01, 0x02], [0, 0, 0, 0, 14]),
    (0x3E, 60, [0xFE, 0xFF, 0x00, 0x01, 0x02], [0, 0, 0, 0, 14]),
    (0x3F, 62, [0xFF, 0x00, 0x01, 0x02, 0x03], [0, 0, 15, 15, 14]),
];

pub fn run(tally: &mut Tally) {
    for (limit, taken, answers) in TURNS {
        let start = at(limit, taken);
        turns(tally, &start, answers, [5, 6, 7, 8, 6]);
        for (lost, answer) in (0..).zip(answers) {
            if answer == 0 {
                late(tally, &start, lost);
            }
        }
    }
    for (before, after) in COUNTS {
        let mut start = at(64, 2);
        start.write(0x20, &[before]);
        turns(tally, &start, [0, 0, 0, 0, 14], after);
    }
    COURSES.iter().for_each(|course| one_cycle(tally, course));
    replies(tally);
    wraps(tally);
    in_fallback(tally);
    muted(tally);
    next_cycle(tally);
}

/// In RUN in cycle 07h, outputs on, k taken, CPT_SEQ 5.
fn at(limit: u8, taken: u8) -> Bench {
    let mut bench = Bench::limited(limit);
    for _ in 0..taken {
        bench.read(1, 0x10);
    }
    bench.ticks(3);
    bench.agent.registers.bytes[0x80..0xC0].fill(0x11);
    bench.agent.registers[0x20] = 5;
    bench
}

/// Each request after 0 to 4 that were lost: its answer, and everything that it leaves. `counts` are CPT_SEQ
/// after each.
fn turns(tally: &mut Tally, start: &Bench, answers: [u8; 5], counts: [u8; 5]) {
    for (lost, (answer, count)) in (0..).zip(answers.into_iter().zip(counts)) {
        for (what, said, number, effect) in KINDS {
            let mut bench = start.clone();
            bench.lose(lost);
            let mut wanted = start.agent.clone();
            match answer {
                0 => {
                    skipped(&mut wanted, lost, count);
                    effect(&mut wanted);
                }
                14 => out_of_order(&mut wanted, count),
                _ => {}
            }
            let outcome = bench.say(1, &said(bench.head()));
            let expected = if answer == 0 { number } else { answer };
            let sent = answer == 0 && what.starts_with("a read");
            let right = outcome.number == expected && (outcome.sent > 0) == sent;
            let (limit, taken) = (start.agent.fixed.limit, start.agent.taken);
            let what = format!("limit {limit}, k {taken}, {lost} skipped by {what}: {expected}");
            tally.check(right && bench.agent == wanted, &what);
        }
    }
}

/// What a request leaves before its own effect.
fn skipped(agent: &mut Agent, lost: u8, count: u8) {
    agent.taken += lost + 1;
    agent.registers[0x20] = count;
    if lost > 0 {
        agent.registers[0x19] |= ESE;
    }
}

fn out_of_order(agent: &mut Agent, count: u8) {
    agent.registers[0x20] = count;
    agent.registers[0x19] |= ESE;
}

/// The numbers skipped, and then the one taken, come once more on either port, a repeated sync between: 13,
/// and nothing at all changes. The next number is due.
fn late(tally: &mut Tally, start: &Bench, lost: u8) {
    let (limit, taken) = (start.agent.fixed.limit, start.agent.taken);
    let mut bench = start.clone();
    bench.lose(lost);
    let mut right = bench.write(0x80, &[0x22]) == 0;
    let left = bench.agent.clone();
    for (number, (_, said, ..)) in (0..=lost).flat_map(|number| KINDS.map(|kind| (number, kind))) {
        let mut head = start.head();
        head.seq = head.seq.wrapping_add(number);
        for port in [1, 2] {
            let mut buffer = [0x5A; REPLY_ROOM];
            let outcome = bench.agent.frame(port, &said(head).body(), &mut buffer);
            right &= (outcome.number, outcome.sent) == (13, 0) && bench.agent == left;
            right &= buffer.iter().all(|&byte| byte == 0x5A) && bench.sync(0x07) == 13;
        }
    }
    let what = format!("limit {limit}, k {taken}, {lost} skipped: late ones are 13");
    tally.check(right, &what);
    let expected = if taken + lost + 1 < limit { 0 } else { 15 };
    let next = bench.read(1, 0x10).0 == expected && bench.register(0x20) == 5 + lost;
    tally.check(next, &format!("{what}, the next is {expected}"));
}

/// 13 and 15 change nothing at all; after 15 the numbers below the limit can still be taken.
fn one_cycle(tally: &mut Tally, &(limit, taken, course, count): &Course) {
    let mut bench = at(limit, taken);
    bench.agent.registers[0x20] = 0;
    let first = bench.head().seq.wrapping_sub(taken);
    for &(number, answer) in course {
        let before = bench.agent.clone();
        let mut head = bench.head();
        head.seq = first.wrapping_add(number);
        let given = bench.say(1, &speech::read(0x90, head, 1, 0x10)).number;
        let kept = ![13, 15].contains(&answer) || bench.agent == before;
        let what = format!("limit {limit}, from k {taken}: {number} is {answer}");
        tally.check(given == answer && kept, &what);
    }
    let what = format!("limit {limit}, from k {taken}: {count} counted");
    tally.check(bench.register(0x20) == count, &what);
}

/// STAT, and what a read from 19h to 20h shows, or the error reply; then STATUT is clear.
fn replies(tally: &mut Tally) {
    for (lost, bit, count) in [(0, 0, 5), (1, ESE, 6), (2, ESE, 7), (3, ESE, 8)] {
        for (port, before, bits) in [(1, 0x00, 0x00), (2, 0x00, 0x40), (2, 0x21, 0x61)] {
            let mut start = at(64, 3);
            start.agent.registers[0x19] = before;
            start.lose(lost);
            let stat = bits | bit;
            let served = [stat, 5, 2, 0x80, 8, 0, 0, count];
            for (datl, add, com, data) in [(8, 0x19, 0x70, &served[..]), (255, 0x00, 0x55, &[])] {
                let mut bench = start.clone();
                let outcome = bench.say(port, &speech::read(0x90, start.head(), datl, add));
                let wanted = (
                    response(&start, com, data.len() as u8, add, stat),
                    data.to_vec(),
                );
                let right = outcome.number == 0 && bench.reply(outcome) == Some(wanted);
                let what = format!("{lost} skipped, reply {com:02X}h with STAT {stat:02X}h");
                tally.check(right && bench.register(0x19) == 0, &what);
            }
        }
    }
}

fn response(bench: &Bench, com: u8, datl: u8, add: u8, stat: u8) -> Frame {
    let head = Head {
        dest: FIRST,
        src: OWN,
        cyc: 0x07,
        seq: bench.head().seq.wrapping_add(1),
    };
    let span = Span { datl, add };
    Frame::SafeResponse {
        head,
        com,
        span,
        stat,
    }
}

/// SEQ goes from FFh to 00h among the numbers skipped.
fn wraps(tally: &mut Tally) {
    for (cyc, taken, seqs, answers) in WRAPS {
        let mut start = Bench::running(10, 2, 5, cyc);
        for _ in 0..taken {
            start.read(1, 0x10);
        }
        for (count, (seq, answer)) in [0, 1, 2, 3, 1]
            .into_iter()
            .zip(seqs.into_iter().zip(answers))
        {
            let mut bench = start.clone();
            let head = Head {
                seq,
                ..start.head()
            };
            let number = bench.say(1, &speech::read(0x90, head, 1, 0x10)).number;
            let count = if answer == 15 { 0 } else { count };
            let right = number == answer && bench.register(0x20) == count;
            tally.check(right, &format!("CYC {cyc:02X}, k {taken}, SEQ {seq:02X}"));
        }
    }
}

/// Bit 7 stays beside bit 1. A write to 18h is accepted, one to the outputs is 16.
fn in_fallback(tally: &mut Tally) {
    let mut start = Bench::named();
    start.sync(0x07);
    for (lost, statut) in [(0, 0x80), (1, 0x82), (2, 0x82), (3, 0x82)] {
        for (what, add, number) in [("18h", 0x18, 0), ("80h", 0x80, 16)] {
            let mut bench = start.clone();
            bench.lose(lost);
            let mut wanted = start.agent.clone();
            (wanted.taken, wanted.registers[0x20]) = (lost + 1, lost);
            wanted.registers[0x19] = statut;
            if number == 0 {
                wanted.registers[add] = 9;
            }
            let right = bench.write(add, &[9]) == number && bench.agent == wanted;
            tally.check(
                right,
                &format!("fallback, {lost} skipped by a write to {what}"),
            );
        }
        let mut bench = start.clone();
        bench.lose(lost);
        let wanted = response(&bench, 0x70, 1, 0x20, statut);
        let right = bench.read(1, 0x20) == (0, Some((wanted, vec![lost])));
        tally.check(right, &format!("fallback, {lost} skipped by a read"));
    }
}

/// CONF bit 2: nothing is sent and bit 1 stays. The first reply after that shows it.
fn muted(tally: &mut Tally) {
    for lost in 1..=3 {
        let mut bench = Bench::limited(64);
        bench.write(0x25, &[0x04]);
        bench.lose(lost);
        let mut wanted = bench.agent.clone();
        (wanted.taken, wanted.registers[0x20]) = (lost + 2, lost);
        wanted.registers[0x19] = ESE;
        let right = bench.read(1, 0x19) == (0, None) && bench.agent == wanted;
        tally.check(right, &format!("muted, {lost} skipped"));
        bench.write(0x25, &[0x00]);
        let shown = response(&bench, 0x70, 1, 0x19, ESE);
        let right = bench.read(1, 0x19) == (0, Some((shown, vec![ESE])));
        tally.check(right && bench.register(0x19) == 0, "not muted any more");
    }
}

/// With the next sync k is 0 again, and a number skipped before is one of another cycle.
fn next_cycle(tally: &mut Tally) {
    let mut bench = at(64, 2);
    let late = speech::write(0x90, bench.head(), 0x80, &[0x77]);
    bench.lose(3);
    let right = bench.write(0x80, &[0x22]) == 0;
    bench.ticks(6);
    tally.check(right && bench.sync(0x08) == 0, "the sync after a skip");
    let right = bench.say(1, &late).number == 12 && bench.register(0x80) == 0x22;
    tally.check(right, "a number skipped in the cycle before");
    let right = bench.read(1, 0x10).0 == 0 && bench.agent.taken == 1;
    tally.check(right && bench.register(0x20) == 9, "the first SEQ is due");
}
