//! What the cycles of the line load in a script bring up, each thing once for a cycle, and how often. And what the script
//! brings up as a whole.

use super::open::Open;
use super::sent;
use crate::frame::{self, Frame};
use crate::module::registers::{CONF, SILENT};
use crate::module::{Agent, Mode};
use crate::script::{parse, Line, Lines, Played, Player, LINE_MAX};
use std::collections::BTreeMap;
use std::fmt;

pub struct LoadCensus {
    pub counts: BTreeMap<String, usize>,
    player: Player,
    /// Lines so far.
    number: usize,
    open: Option<Open>,
    /// Cycles without a reply, one after another, up to the last that has ended.
    nothing_sent: usize,
    /// Whether something was sent before the first cycle.
    sent_before: bool,
    /// Whether the last line opened a cycle, and whether it sent something.
    last: [bool; 2],
}

/// A script as bytes.
pub fn of_load(script: &[u8]) -> LoadCensus {
    let mut census = LoadCensus {
        counts: BTreeMap::new(),
        player: Player::power_up(),
        number: 0,
        open: None,
        nothing_sent: 0,
        sent_before: false,
        last: [false; 2],
    };
    let mut lines = Lines::new(script);
    while let Some(line) = lines.next_line().expect("memory can be read") {
        census.line(line);
    }
    census.end(script);
    census
}

impl LoadCensus {
    pub fn count(&self, what: &str) -> usize {
        self.counts.get(what).copied().unwrap_or(0)
    }

    fn add(&mut self, what: &str) {
        *self.counts.entry(what.to_string()).or_default() += 1;
    }

    /// Of the open cycle, if there is one.
    fn note(&mut self, what: &str) {
        if let Some(open) = &mut self.open {
            open.what.insert(what.to_string());
        }
    }

    fn line(&mut self, line: &[u8]) {
        self.number += 1;
        self.last = [false; 2];
        let before = self.player.agent.clone();
        match parse(line) {
            None if line.len() > LINE_MAX => self.note("line over 1,200 characters within"),
            None => self.note("BAD line within"),
            Some(Line::Ticks(count)) => {
                let held = self.player.agent.registers.inputs();
                (0..count).for_each(|_| self.tick(&held));
            }
            Some(Line::Inputs(inputs)) => self.tick(&inputs),
            Some(Line::Frame { port, body }) => self.frame(port, body),
        }
        if let Some(open) = &mut self.open {
            open.lines += 1;
        }
        self.changes(&before);
    }

    fn tick(&mut self, inputs: &[u8]) {
        // A module that was powered up stays sound.
        let answer = self.player.agent.tick(inputs);
        answer.expect("a sound state and 64 inputs");
        if let Some(open) = &mut self.open {
            open.ms += 1;
            open.clock_ends += (self.player.agent.in_cycle == 0) as usize;
        }
    }

    fn frame(&mut self, port: u8, body: Vec<u8>) {
        let before = self.player.agent.clone();
        let read = frame::read(&body).map(|received| received.frame);
        let played = self.player.play_line(Line::Frame { port, body });
        match read {
            Ok(Frame::Sync { .. }) if played.answer == 0 => self.open(port, &before),
            Ok(Frame::Sync { .. }) => {
                self.note(&format!("sync refused with {} within", played.answer))
            }
            Ok(Frame::SafeRead { .. } | Frame::SafeWrite { .. }) if played.answer != 0 => {
                self.note(&format!("request refused with {} within", played.answer))
            }
            _ => {}
        }
        self.reply(port, &played);
    }

    fn open(&mut self, port: u8, before: &Agent) {
        self.close();
        self.last[0] = true;
        let agent = &self.player.agent;
        self.open = Some(Open::new(self.number, agent.registers.tcyc()));
        self.note(&format!("opened on port {port}"));
        self.note(match (before.mode, self.player.agent.mode) {
            (Mode::Run, _) => "opened in RUN",
            (_, Mode::Run) => "opened with the step to RUN",
            _ => "opened in fallback",
        });
        if before.source.is_some() && before.source != self.player.agent.source {
            self.note("opened by another concentrator");
        }
        if before.registers[CONF] & SILENT != 0 {
            self.note("muted from its sync on");
        }
    }

    fn reply(&mut self, port: u8, played: &Played) {
        let wire_bytes = played.reply.len();
        if wire_bytes == 0 {
            return;
        }
        self.last[1] = true;
        let Some(open) = &mut self.open else {
            self.sent_before = true;
            return;
        };
        open.cycle.wire_bytes += wire_bytes as u64;
        open.ports.insert(port);
        let after_clock_end = open.clock_ends > 0;
        for what in sent::events(&played.reply) {
            self.note(what);
            if after_clock_end {
                self.note(&format!("{what} after a clock end"));
            }
        }
    }

    /// What a line has changed within the cycle.
    fn changes(&mut self, before: &Agent) {
        let after = self.player.agent.clone();
        if before.registers.tcyc() != after.registers.tcyc() {
            self.note("TCYC changed within");
        }
        if before.mode == Mode::Run && after.mode == Mode::Fallback {
            self.note("left RUN within");
        }
        match [before, &after].map(|agent| agent.registers[CONF] & SILENT != 0) {
            [false, true] => self.note("muted within"),
            [true, false] => self.note("unmuted within"),
            _ => {}
        }
    }

    fn close(&mut self) {
        let Some(open) = self.open.take() else {
            return;
        };
        self.add("cycles");
        let back = open.what.contains("TCYC changed within")
            && self.player.agent.registers.tcyc() == open.cycle.tcyc;
        self.nothing_sent = match open.cycle.wire_bytes {
            0 => self.nothing_sent + 1,
            _ => 0,
        };
        let others = [
            ("TCYC changed within and back", back),
            ("nothing sent, third in a row", self.nothing_sent == 3),
        ];
        let came = others.iter().filter(|(_, came)| *came);
        let whats = open.ended().into_iter().chain(came.map(|(what, _)| *what));
        for what in whats.map(str::to_string).chain(open.what) {
            self.add(&format!("cycles, {what}"));
        }
    }

    fn end(&mut self, script: &[u8]) {
        let [opened, sent] = self.last;
        let came = [
            ("without a cycle", self.open.is_none()),
            ("ended in an open cycle", self.open.is_some()),
            ("sent before the first cycle", self.sent_before),
            ("last line without LF", !script.ends_with(b"\n")),
            ("last line opened a cycle", opened),
            ("last line sent something", sent),
        ];
        self.close();
        for (what, _) in came.iter().filter(|(_, came)| *came) {
            self.add(&format!("scripts, {what}"));
        }
    }
}

impl fmt::Display for LoadCensus {
    fn fmt(&self, output: &mut fmt::Formatter) -> fmt::Result {
        for (what, count) in &self.counts {
            writeln!(output, "{what}: {count}")?;
        }
        Ok(())
    }
}
