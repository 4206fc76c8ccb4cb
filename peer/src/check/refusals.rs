//! Scripts by hand with refused frames between those that have an effect, in RUN.

use super::module::{FIRST, OWN, SECOND};
use crate::body;
use crate::frame::{Head, SidAssignment, BROADCAST};
use crate::generate::draft::Draft;
use crate::generate::speech;
use crate::tape::Tape;

/// A bit of the safety CRC turned, the FCS right.
fn damaged(draft: &Draft) -> Vec<u8> {
    let mut application = draft.application();
    *application.last_mut().expect("a frame has bytes") ^= 1;
    body::enclose(draft.address, &application)
}

/// The next request, not counted by the one who says it.
fn next_write(tape: &Tape) -> Draft {
    speech::write(0x90, tape.head(), 0x80, &[0xEE])
}

fn to_another(tape: &mut Tape) {
    let draft = next_write(tape);
    tape.say(
        2,
        &Draft {
            address: 0x21,
            ..draft
        },
    );
}

fn from(tape: &mut Tape, src: u32) {
    let head = Head { src, ..tape.head() };
    tape.say(2, &speech::write(0x90, head, 0x80, &[0xEE]));
}

pub fn last_lines() -> Tape {
    let mut tape = Tape::running();
    tape.write(0x80, &[1, 2, 3]);
    tape.again();
    to_another(&mut tape);
    tape
}

/// After them a write, a read that shows STATUT and the counters, and the next cycle.
pub fn side_by_side() -> Tape {
    let mut tape = Tape::running();
    tape.read(8, 0x19);
    tape.write(0x80, &[1; 64]);
    tape.again();
    let head = Head {
        dest: OWN ^ 1,
        ..tape.head()
    };
    tape.say(1, &speech::write(0x90, head, 0x80, &[0xEE]));
    from(&mut tape, SECOND);
    let body = damaged(&next_write(&tape));
    tape.body(1, &body);
    to_another(&mut tape);
    tape.say(2, &speech::sync(FIRST, 0x07));
    tape.write(0x90, &[2]);
    tape.read(8, 0x19);
    tape.ticks(9);
    tape.sync(0x08);
    tape
}

/// Of a write, a read and a sync.
pub fn repeats() -> Tape {
    let mut tape = Tape::running();
    tape.write(0x80, &[1]);
    tape.again();
    tape.read(64, 0x80);
    tape.again();
    tape.body(1, &[]);
    tape.say(2, &speech::sync(FIRST, 0x07));
    tape.read(8, 0x19);
    tape
}

/// Another has taken over: what the first one writes is 10, and so is a sync of a stranger.
pub fn deposed() -> Tape {
    let mut tape = Tape::running();
    tape.ticks(9);
    tape.sync_of(SECOND, 0x08);
    from(&mut tape, FIRST);
    from(&mut tape, FIRST);
    tape.write(0x80, &[7]);
    tape.read(1, 0x20);
    tape.ticks(10);
    tape.say(1, &speech::sync(FIRST ^ 1, 0x09));
    tape.sync_of(SECOND, 0x09);
    tape
}

/// TID and SID for other modules, of no source, and damaged; the own address stays.
pub fn names() -> Tape {
    let mut tape = Tape::running();
    tape.write(0x80, &[1]);
    tape.say(1, &speech::tid(BROADCAST, 3, 0x21));
    let own = SidAssignment {
        src: 0x33_CC33,
        sec: 9,
        mac: 1,
        sid: OWN,
    };
    tape.say(1, &speech::sid(BROADCAST, SidAssignment { mac: 2, ..own }));
    let nobody = SidAssignment {
        src: 0xFF_FFFF,
        ..own
    };
    tape.say(1, &speech::sid(BROADCAST, nobody));
    tape.body(1, &damaged(&speech::sid(BROADCAST, own)));
    tape.say(1, &speech::write(0x8F, tape.head(), 0x81, &[2]));
    tape.ticks(9);
    tape.sync(0x08);
    tape.read(4, 0x13);
    tape
}

/// Fallback comes with the 20th tick, whoever speaks between.
pub fn ticking() -> Tape {
    let mut tape = Tape::running();
    tape.write(0x80, &[1]);
    tape.ticks(10);
    let sync = speech::sync(FIRST, 0x08);
    tape.body(1, &damaged(&sync));
    tape.ticks(9);
    tape.say(1, &speech::sync(FIRST ^ 1, 0x08));
    tape.line(&format!("I {}", "5A".repeat(64)));
    to_another(&mut tape);
    tape.ticks(1);
    tape
}

/// A sync too early is 22. What comes between it and the end of the cycle does not clear the mark.
pub fn marked() -> Tape {
    let mut tape = Tape::running();
    tape.write(0x80, &[1]);
    tape.ticks(3);
    tape.say(1, &speech::sync(FIRST, 0x08));
    tape.say(2, &speech::sync(FIRST, 0x07));
    tape.body(1, &damaged(&speech::sync(FIRST, 0x08)));
    tape.say(1, &speech::sync(FIRST ^ 1, 0x08));
    to_another(&mut tape);
    tape.write(0x81, &[2]);
    tape.ticks(6);
    tape.ticks(1);
    tape
}

/// They keep their places.
pub fn bad_lines() -> Tape {
    let mut tape = Tape::running();
    tape.write(0x80, &[1]);
    tape.line("T 0");
    let copy = tape.lines[8].clone();
    tape.lines.push(copy.clone());
    tape.line("");
    tape.lines.push(copy);
    tape.line("1 0");
    tape.write(0x81, &[2]);
    tape
}

/// As many requests as the module takes, then two more, which are 15 and none of the five; after each a repeat of the
/// last one taken.
pub fn full_cycle(limit: u8) -> Tape {
    let mut tape = Tape::running();
    for _ in 1..limit {
        tape.read(1, 0x10);
    }
    tape.write(0x80, &[limit]);
    let last = tape.lines.last().expect("a write").clone();
    tape.lines.push(b"3 00".to_vec());
    tape.read(1, 0x10);
    tape.lines.push(last.clone());
    tape.read(1, 0x10);
    tape.lines.push(last);
    tape.ticks(9);
    tape.sync(0x08);
    tape.write(0x80, &[1]);
    tape
}
