//! Numbers 19 to 21: unsound states, small buffers, other ports. Other inputs are in `tick`.

use super::module::{Bench, FIRST};
use super::Tally;
use crate::module::{Agent, Fixed, Mode};
use crate::refusal::Refusal;

type Spoil = fn(&mut Agent);

/// Each makes a module in RUN unsound.
const IN_RUN: [(&str, Spoil); 21] = [
    ("TID 00h", |agent| agent.registers[0x13] = 0x00),
    ("TID 7Dh", |agent| agent.registers[0x13] = 0x7D),
    ("TID 7Eh", |agent| agent.registers[0x13] = 0x7E),
    ("TID 90h", |agent| agent.registers[0x13] = 0x90),
    ("twice recorded", |agent| agent.recorded.push(FIRST)),
    ("nine recorded", |agent| agent.recorded.extend(1..8)),
    ("FFFFFFh recorded", |agent| agent.recorded.push(0xFF_FFFF)),
    ("over 24 bits", |agent| agent.recorded.push(0x100_0000)),
    ("no SID", |agent| agent.registers.set_sid(0xFF_FFFF)),
    ("k", |agent| agent.taken = 65),
    ("e", |agent| agent.in_cycle = 255),
    ("a strange source", |agent| agent.source = Some(5)),
    ("heard of nobody", |agent| agent.source = None),
    ("RUN of nobody", |agent| {
        agent.source = None;
        agent.heard = false;
    }),
    ("outputs of fallback", |agent| agent.mode = Mode::Fallback),
    ("TYP", |agent| agent.registers[0x10] = 0x81),
    ("bit 7", |agent| agent.registers[0x19] |= 0x80),
    ("bit 6", |agent| agent.registers[0x19] |= 0x40),
    ("held in RUN", |agent| agent.registers[0x17] = 0xAA),
    ("s", |agent| agent.since_sync = 20),
    ("q", |agent| agent.since_output = 50),
];

/// Each makes a module in fallback unsound.
const IN_FALLBACK: [(&str, Spoil); 9] = [
    ("t", |agent| agent.registers[0x18] = 0),
    ("n", |agent| agent.registers[0x1B] = 0),
    ("m", |agent| agent.registers[0x1A] = 0),
    ("OUT_REP", |agent| agent.registers[0x17] = 0x56),
    ("first output", |agent| agent.registers[0x80] = 1),
    ("last output", |agent| agent.registers[0xBF] = 1),
    ("q in fallback", |agent| agent.since_output = 1),
    ("no bit 7", |agent| agent.registers[0x19] = 0),
    ("heard of nobody", |agent| agent.heard = true),
];

/// Each leaves any module sound.
const HARMLESS: [(&str, Spoil); 6] = [
    ("k 64", |agent| agent.taken = 64),
    ("e 254", |agent| agent.in_cycle = 254),
    ("other bits", |agent| agent.registers[0x19] |= 0x3F),
    ("TID 8Fh", |agent| agent.registers[0x13] = 0x8F),
    ("TID 8Eh", |agent| agent.registers[0x13] = 0x8E),
    ("unheard", |agent| agent.heard = false),
];

pub fn run(tally: &mut Tally) {
    let running = Bench::running(10, 2, 5, 0x07).agent;
    let fallback = Agent::power_up(1, 2, 0, Fixed::DOORS);
    tally.check(running.sound() && fallback.sound(), "both are sound");
    for (what, spoil) in IN_RUN {
        unsound(tally, what, &running, spoil);
    }
    let named = Bench::named().agent;
    for (what, spoil) in IN_FALLBACK {
        unsound(tally, what, &fallback, spoil);
        unsound(tally, what, &named, spoil);
    }
    unsound(tally, "recorded, no SID", &fallback, |agent| {
        agent.recorded.push(5)
    });
    unsound(tally, "SID, none recorded", &named, |agent| {
        agent.recorded.clear()
    });
    for (what, spoil) in HARMLESS {
        for mut agent in [running.clone(), fallback.clone()] {
            spoil(&mut agent);
            tally.check(agent.sound(), what);
        }
    }
    order(tally, &running);
}

fn unsound(tally: &mut Tally, what: &str, sound: &Agent, spoil: Spoil) {
    let mut agent = sound.clone();
    spoil(&mut agent);
    refused(tally, what, agent);
}

/// Both calls answer 19 before all else and change nothing.
pub fn refused(tally: &mut Tally, what: &str, mut agent: Agent) {
    let before = agent.clone();
    let mut right = [0, 63, 64, 65]
        .iter()
        .all(|&length| agent.tick(&vec![9; length]) == Err(Refusal::Unsound));
    right &= agent.frame(3, &[], &mut []).number == 19;
    right &= agent.frame(1, &[0; 6], &mut [0; 545]).number == 19;
    tally.check(right && agent == before, &format!("unsound: {what}"));
}

/// 20 before 21, 21 before 1; only the last leaves a trace.
fn order(tally: &mut Tally, sound: &Agent) {
    for (port, room, number) in [
        (3, 544, 20),
        (1, 544, 20),
        (3, 545, 21),
        (0, 545, 21),
        (1, 545, 1),
    ] {
        let mut agent = sound.clone();
        let mut buffer = vec![0x5A; room];
        let outcome = agent.frame(port, &[0; 6], &mut buffer);
        let right = outcome.number == number && outcome.sent == 0;
        let kept = buffer.iter().all(|&byte| byte == 0x5A) && (agent == *sound) == (number != 1);
        tally.check(right && kept, &format!("port {port}, room {room}"));
    }
}
