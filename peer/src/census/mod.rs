//! What a script brings up, and how often: answers, the ways into RUN and out of it, and more.
//! For lists of the frame program, `list` does the same, `load` for the cycles of the line load, `journey` and `incident`
//! for what the journey and the which program print.

mod bad;
mod bodies;
mod grounds;
mod incident;
mod journey;
mod list;
mod load;
mod open;
mod sent;
mod skips;
mod ticks;
mod windows;
mod writes;

pub use grounds::CHANGED;
pub use incident::of_incident;
pub use journey::of_journey;
pub use list::{of_list, ListCensus};
pub use load::{of_load, LoadCensus};
pub use sent::events as sent;

use crate::body;
use crate::frame::{self, com, Frame};
use crate::module::registers::{CONF, CPT_FOR, CPT_SEQ, SILENT};
use crate::module::{Agent, Mode};
use crate::script::{parse, Line, Lines, Played, Player};
use skips::Skips;
use std::collections::{BTreeMap, HashMap};
use std::fmt;

pub struct Census {
    counts: BTreeMap<String, usize>,
    player: Player,
    /// The port on which a body was accepted last.
    accepted: HashMap<Vec<u8>, u8>,
    /// The port on which a sync came outside its window last.
    outside: u8,
    /// How many lines of inputs came one after another, up to this one.
    in_a_row: usize,
    skips: Skips,
}

/// A script as bytes.
pub fn of(script: &[u8]) -> Census {
    let mut census = Census {
        counts: BTreeMap::new(),
        player: Player::power_up(),
        accepted: HashMap::new(),
        outside: 0,
        in_a_row: 0,
        skips: Skips::default(),
    };
    let mut lines = Lines::new(script);
    while let Some(line) = lines.next_line().expect("memory can be read") {
        census.line(line);
    }
    census
}

impl Census {
    pub fn count(&self, what: &str) -> usize {
        self.counts.get(what).copied().unwrap_or(0)
    }

    pub fn answers(&self, number: u8) -> usize {
        self.count(&format!("answer {number:2}"))
    }

    fn add(&mut self, what: &str) {
        *self.counts.entry(what.to_string()).or_default() += 1;
    }

    fn line(&mut self, line: &[u8]) {
        let parsed = parse(line);
        self.in_a_row = match parsed {
            Some(Line::Inputs(_)) => self.in_a_row + 1,
            _ => 0,
        };
        match parsed {
            None => {
                self.add("bad line");
                self.add(&format!("bad line: {}", bad::form(line)));
            }
            Some(Line::Ticks(count)) => {
                self.add("answer  0");
                let held = self.player.agent.registers.inputs();
                for _ in 0..count {
                    self.tick(&held);
                }
            }
            Some(Line::Inputs(inputs)) => self.inputs(&inputs),
            Some(Line::Frame { port, body }) => self.play(port, body),
        }
    }

    fn tick(&mut self, inputs: &[u8]) -> Vec<String> {
        let before = self.player.agent.clone();
        // A module that was powered up stays sound.
        let answer = self.player.agent.tick(inputs);
        answer.expect("a sound state and 64 inputs");
        let events = ticks::events(&before, &self.player.agent);
        events.iter().for_each(|what| self.add(what));
        events
    }

    fn inputs(&mut self, inputs: &[u8]) {
        self.add("answer  0");
        self.add("inputs");
        match self.in_a_row {
            2 => self.add("inputs, two in a row"),
            6 => self.add("inputs, six in a row"),
            _ => {}
        }
        for what in self.tick(inputs) {
            self.add(&format!("inputs: {what}"));
        }
    }

    fn play(&mut self, port: u8, body: Vec<u8>) {
        let before = self.player.agent.clone();
        let line = Line::Frame {
            port,
            body: body.clone(),
        };
        let played = self.player.play_line(line);
        self.add(&format!("answer {:2}", played.answer));
        let after = self.player.agent.clone();
        self.frame(port, &body, &before, played.answer);
        self.held_back(&before, &after, &played);
        self.modes(&before, &after);
        self.syncs(&before, &after, &played);
        self.replies(&played);
    }

    fn frame(&mut self, port: u8, received: &[u8], before: &Agent, answer: u8) {
        if before.recorded.is_empty() {
            self.add("frame before the first SID");
        }
        if let Some(fault) = bodies::fault(received) {
            self.add(&fault);
        }
        if let Ok(body) = body::read(received) {
            let typ = body.application[0];
            self.add(&format!("in {:?}: {answer:2} to {typ:02X}h", before.mode));
        }
        if let Ok(received) = frame::read(received) {
            self.request(&received.frame, before, answer);
            self.window(port, &received.frame, before, answer);
            let skips = self.skips.events(&received.frame, before, answer);
            skips.iter().for_each(|what| self.add(what));
        }
        match answer {
            0 => drop(self.accepted.insert(received.to_vec(), port)),
            13 if self
                .accepted
                .get(received)
                .is_some_and(|&first| first != port) =>
            {
                self.add("repeat on the other port");
            }
            _ => {}
        }
    }

    fn window(&mut self, port: u8, frame: &Frame, before: &Agent, answer: u8) {
        for what in windows::events(frame, before, answer) {
            self.add(&what);
            if what == "mark healed" && port != self.outside {
                self.add("mark healed on the other port");
            }
        }
        if answer == 22 {
            self.outside = port;
        }
    }

    fn request(&mut self, frame: &Frame, before: &Agent, answer: u8) {
        // Only what the write rules themselves judge.
        if [0, 16].contains(&answer) {
            for place in writes::places(frame) {
                self.add(&format!("{place}: {answer} in {:?}", before.mode));
            }
        }
        if answer == 0 {
            let again = grounds::of_request(frame, before, &self.player.agent);
            again.iter().for_each(|what| self.add(what));
        }
        let (Frame::SafeRead { head, .. } | Frame::SafeWrite { head, .. }) = *frame else {
            return;
        };
        if before.taken == before.fixed.limit && (13..=15).contains(&answer) {
            self.add(&format!("k at the limit: {answer}"));
        }
        let deposed = before.recorded.contains(&head.src) && before.source != Some(head.src);
        if answer == 10 && deposed && before.source.is_some() {
            self.add(&format!("request of a deposed one in {:?}", before.mode));
            if before.cycle < 4 {
                self.add("request of a deposed one in cycle 00h to 03h");
            }
        }
    }

    /// What leaves no trace: replies that CONF forbids, counters that have stopped.
    fn held_back(&mut self, before: &Agent, after: &Agent, played: &Played) {
        if before.registers[CONF] & SILENT != 0 && played.answer == 0 {
            self.add("accepted with CONF bit 2");
        }
        for (counter, name, answers) in
            [(CPT_SEQ, "CPT_SEQ", [12, 14]), (CPT_FOR, "CPT_FOR", [7, 7])]
        {
            let full = before.registers[counter] == 0xFF && after.registers[counter] == 0xFF;
            if full && answers.contains(&played.answer) {
                self.add(&format!("{name} stays at 255"));
            }
        }
    }

    fn modes(&mut self, before: &Agent, after: &Agent) {
        if before.mode == Mode::Fallback && after.mode == Mode::Run {
            self.add("entered RUN");
        }
        for what in grounds::of_frame(before, after) {
            self.add(&what);
        }
    }

    /// Takeovers and wraps, seen from what a frame changed.
    fn syncs(&mut self, before: &Agent, after: &Agent, played: &Played) {
        let running = before.mode == Mode::Run && after.mode == Mode::Run;
        if running && !before.heard && after.heard {
            self.add(match after.cycle == before.cycle {
                true => "sync in RUN when the clock ended the cycle: CYC = c",
                false => "sync in RUN when one was lost: CYC = c + 1",
            });
        }
        if running && after.cycle < before.cycle {
            self.add("wrap in RUN by a sync");
        }
        if before.source.is_some() && before.source != after.source {
            self.add(match running {
                true => "takeover in RUN",
                false => "takeover in fallback",
            });
        }
        if played.answer == 0 && before.registers[0x13] != after.registers[0x13] {
            self.add("new TID");
        }
        if before.recorded.len() != after.recorded.len() {
            self.add("recorded");
        }
    }

    fn replies(&mut self, played: &Played) {
        let [_, inner @ .., _] = &played.reply[..] else {
            return;
        };
        let reply = frame::read(inner).expect("a reply is a right frame");
        let what = match reply.frame {
            Frame::SafeResponse { com, .. } => match com {
                com::SAFE_TO_SYNC => "reply: to a sync",
                com::SAFE_TO_READ => "reply: to a read",
                com::ERROR_TO_SYNC => "reply: error AAh",
                _ => "reply: error 55h",
            },
            _ => "reply: acknowledgement",
        };
        self.add(what);
        if let Some(ground) = grounds::in_reply(&reply.frame, &reply.data) {
            self.add(&format!("{what}, 26h {ground}"));
        }
        if played.reply.len() > 280 {
            self.add("reply: over 280 bytes");
        }
    }
}

impl fmt::Display for Census {
    fn fmt(&self, output: &mut fmt::Formatter) -> fmt::Result {
        for (what, count) in &self.counts {
            writeln!(output, "{what}: {count}")?;
        }
        Ok(())
    }
}
