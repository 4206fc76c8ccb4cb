//! What is measured: each workload is a module in some state and calls on it, one by one.

use crate::sides::{Settable, Side};
use peer::body;
use peer::frame::{Head, SidAssignment};
use peer::generate::random::Random;
use peer::generate::{damage, sample, speech};
use peer::module::registers::{CNF_REP, OUT_REP, RELEASE, TCYC};
use peer::module::{first_seq, Agent, Fixed, REPLY_ROOM};
use std::collections::BTreeMap;

const MAC: u64 = 1;
const IID: u64 = 2;
const TID: u8 = 0x05;
const SID: u32 = 0x12_3456;
const MODULES: u8 = 0x90;
const FIRST: u32 = 0x11_EE11;
const SEED: u64 = 1;
const DAMAGED: usize = 2000;

pub struct Workload {
    pub name: &'static str,
    pub what: &'static str,
    /// The answer that every call must give; none for a mixture.
    pub answer: Option<u8>,
    start: fn() -> Agent,
    calls: fn() -> Vec<Call>,
}

pub enum Call {
    Frame(Vec<u8>),
    /// The agent is rewound before the frame.
    FrameAgain(Vec<u8>),
    /// The agent is rewound before the tick.
    Tick(Vec<u8>),
}

pub const ALL: [Workload; 9] = [
    Workload {
        name: "a",
        what: "sync, write of 64, read of 64 in RUN",
        answer: Some(0),
        start: running_short,
        calls: cycles,
    },
    Workload {
        name: "b1",
        what: "543 bytes, all stuffed, unknown TYP",
        answer: Some(7),
        start: running,
        calls: all_stuffed,
    },
    Workload {
        name: "b2",
        what: "write of 255 bytes, refused with 16",
        answer: Some(16),
        start: running,
        calls: longest_write,
    },
    Workload {
        name: "c",
        what: "damaged bodies of every kind, mean 32",
        answer: None,
        start: running,
        calls: damaged,
    },
    Workload {
        name: "c4",
        what: "bodies with one bit turned, mean 32",
        answer: None,
        start: running,
        calls: turned,
    },
    Workload {
        name: "d1",
        what: "tick and inputs in RUN, 1 recorded",
        answer: Some(0),
        start: running,
        calls: ticks,
    },
    Workload {
        name: "d8",
        what: "tick and inputs in RUN, 8 recorded",
        answer: Some(0),
        start: running_with_eight,
        calls: ticks,
    },
    Workload {
        name: "df",
        what: "tick and inputs in fallback",
        answer: Some(0),
        start: heard_in_fallback,
        calls: ticks,
    },
    Workload {
        name: "d0",
        what: "tick with 63 inputs, refused with 21",
        answer: Some(21),
        start: running,
        calls: short_inputs,
    },
];

impl Workload {
    pub fn named(name: &str) -> Option<&'static Workload> {
        ALL.iter().find(|workload| workload.name == name)
    }

    pub fn calls(&self) -> Vec<Call> {
        (self.calls)()
    }

    pub fn set<A: Settable>(&self, side: &mut Side<A>) {
        side.agent.set(&(self.start)());
    }

    /// `count` calls, from the start.
    pub fn play<A: Settable>(&self, side: &mut Side<A>, count: usize) {
        self.set(side);
        let calls = self.calls();
        for call in calls.iter().cycle().take(count) {
            let answer = make(side, call);
            assert!(
                self.answer.is_none_or(|wanted| wanted == answer),
                "{}: answer {answer}",
                self.name
            );
        }
    }

    /// The lengths of the bodies and the answers of one pass, as the library gives them.
    pub fn facts(&self) -> String {
        let mut side = Side::library();
        self.set(&mut side);
        let mut answers = BTreeMap::new();
        for call in &self.calls() {
            *answers.entry(make(&mut side, call)).or_insert(0) += 1;
        }
        let answers: Vec<String> = answers
            .iter()
            .map(|(answer, count)| format!("{answer} ({count})"))
            .collect();
        format!(
            "{:<2} mean body {:.1} bytes; answers {}",
            self.name,
            self.mean_length(),
            answers.join(", ")
        )
    }

    /// The mean length of a body; 0 if no frame is received.
    pub fn mean_length(&self) -> f64 {
        let lengths: Vec<usize> = self.calls().iter().filter_map(Call::length).collect();
        match lengths.len() {
            0 => 0.0,
            count => lengths.iter().sum::<usize>() as f64 / count as f64,
        }
    }
}

impl Call {
    fn length(&self) -> Option<usize> {
        match self {
            Call::Frame(body) | Call::FrameAgain(body) => Some(body.len()),
            Call::Tick(_) => None,
        }
    }
}

pub fn make<A: Settable>(side: &mut Side<A>, call: &Call) -> u8 {
    match call {
        Call::Frame(body) => side.frame(body),
        Call::FrameAgain(body) => {
            side.agent.rewind();
            side.frame(body)
        }
        Call::Tick(inputs) => {
            side.agent.rewind();
            side.tick(inputs)
        }
    }
}

/// Names given and n and m at 255; a cycle is heard in fallback.
fn heard(recorded: u32) -> Agent {
    let mut agent = Agent::power_up(MAC, IID, 0, Fixed::DOORS);
    take(&mut agent, &speech::tid(0xFF, IID, TID).body());
    for place in 0..recorded {
        let assignment = SidAssignment {
            src: FIRST + place,
            sec: 0,
            mac: MAC,
            sid: SID,
        };
        take(&mut agent, &speech::sid(TID, assignment).body());
    }
    take(&mut agent, &speech::sync(FIRST, 0xFE).body());
    let write = speech::write(TID, head(0xFE, 0), CNF_REP, &[0xFF, 0xFF]);
    take(&mut agent, &write.body());
    agent
}

fn run(agent: Agent, place: u8) -> Agent {
    let mut agent = agent;
    let write = speech::write(TID, head(0xFE, place), OUT_REP, &[RELEASE]);
    take(&mut agent, &write.body());
    take(&mut agent, &speech::sync(FIRST, 0xFF).body());
    agent
}

fn running() -> Agent {
    run(heard(1), 1)
}

/// TCYC is 1 ms: every sync is in its window, though no ms goes by.
fn running_short() -> Agent {
    let mut agent = heard(1);
    let write = speech::write(TID, head(0xFE, 1), TCYC, &[1]);
    take(&mut agent, &write.body());
    run(agent, 2)
}

fn running_with_eight() -> Agent {
    run(heard(8), 1)
}

fn heard_in_fallback() -> Agent {
    heard(1)
}

fn take(agent: &mut Agent, body: &[u8]) {
    let outcome = agent.frame(1, body, &mut [0; REPLY_ROOM]);
    assert_eq!(outcome.number, 0, "the way to the start");
}

fn head(cyc: u8, place: u8) -> Head {
    Head {
        dest: SID,
        src: FIRST,
        cyc,
        seq: first_seq(cyc).wrapping_add(place),
    }
}

/// 256 cycles of three requests, CYC 00h to FFh.
fn cycles() -> Vec<Call> {
    let random = &mut Random::new(SEED);
    (0..=0xFF)
        .flat_map(|cyc| {
            let outputs: Vec<u8> = (0..64).map(|_| random.byte()).collect();
            [
                speech::sync(FIRST, cyc),
                speech::write(TID, head(cyc, 0), 0x80, &outputs),
                speech::read(TID, head(cyc, 1), 64, 0x80),
            ]
        })
        .map(|draft| Call::Frame(draft.body()))
        .collect()
}

/// To the address of all modules, FCS stuffed too.
fn all_stuffed() -> Vec<Call> {
    let random = &mut Random::new(SEED);
    loop {
        let application = sample::bytes_with_stuffed(random, 269, 269);
        let body = body::enclose(MODULES, &application);
        if body.len() == 543 {
            return vec![Call::Frame(body)];
        }
    }
}

/// Every data byte is stuffed.
fn longest_write() -> Vec<Call> {
    let write = speech::write(TID, head(0xFF, 0), 0x00, &[0x7E; 255]);
    vec![Call::FrameAgain(write.body())]
}

/// Most are refused before the FCS is looked at.
fn damaged() -> Vec<Call> {
    stream(damage::any)
}

/// Most are refused with the FCS.
fn turned() -> Vec<Call> {
    stream(|random, body| {
        let place = 1 + random.below(body.len() - 1);
        damage::replaced(body, place, body[place] ^ 1 << random.below(8))
    })
}

/// Any application data of 4 to 54 bytes in a right body, then damaged.
fn stream(damage: fn(&mut Random, &[u8]) -> Vec<u8>) -> Vec<Call> {
    let random = &mut Random::new(SEED);
    (0..DAMAGED)
        .map(|_| {
            let length = 4 + random.below(51);
            let application: Vec<u8> = (0..length).map(|_| random.byte()).collect();
            let body = body::enclose(TID, &application);
            Call::Frame(damage(random, &body))
        })
        .collect()
}

fn ticks() -> Vec<Call> {
    vec![Call::Tick((0..64).collect())]
}

fn short_inputs() -> Vec<Call> {
    vec![Call::Tick((0..63).collect())]
}
