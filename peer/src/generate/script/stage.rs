//! The stage of a script: its lines so far, and a module that plays along, so that every
//! scene knows what state it has reached.

use super::super::draft::Draft;
use super::super::line::recase;
use super::super::random::Random;
use super::super::sample;
use crate::hex;
use crate::module::registers::Registers;
use crate::module::{Agent, Fixed};
use crate::script::{Player, TICKS_MAX};
use std::collections::HashMap;

/// How many bodies are kept, to be said again later.
const MEMORY: usize = 200;

/// Of a wait, how many of the first ticks and of the last are lines of inputs.
const BY_INPUTS: [(u32, u32); 6] = [(0, 1), (0, 1), (0, 2), (1, 0), (1, 1), (3, 1)];

/// Which of the frames that are sent come twice.
#[derive(Clone, Copy, Debug, PartialEq, Eq)]
pub enum Copies {
    /// The copy comes on the other port, as on a ring.
    NowAndThen,
    /// A few of the copies come on the same port.
    Always,
    /// The same with a few frames that come once.
    AlmostAlways,
    Never,
}

pub struct Stage {
    pub random: Random,
    pub copies: Copies,
    /// The index last used in each list that is gone through in turn.
    turns: HashMap<&'static str, usize>,
    player: Player,
    lines: Vec<Vec<u8>>,
    said: Vec<Vec<u8>>,
}

impl Stage {
    pub fn new(fixed: Fixed, seed: u64) -> Stage {
        Stage {
            random: Random::new(seed),
            copies: Copies::NowAndThen,
            turns: HashMap::new(),
            player: Player::power_up_as(fixed),
            lines: Vec::new(),
            said: Vec::new(),
        }
    }

    pub fn agent(&self) -> &Agent {
        &self.player.agent
    }

    /// The module's limit of requests in a cycle.
    pub fn limit(&self) -> u8 {
        self.agent().fixed.limit
    }

    pub fn registers(&self) -> &Registers {
        &self.player.agent.registers
    }

    pub fn length(&self) -> usize {
        self.lines.len()
    }

    pub fn lines(&self) -> &[Vec<u8>] {
        &self.lines
    }

    /// Only the first lines, and the module as they leave it.
    pub fn cut(&mut self, count: usize) {
        self.player = Player::power_up_as(self.agent().fixed);
        let lines = std::mem::take(&mut self.lines);
        for line in lines.into_iter().take(count) {
            self.line(line);
        }
    }

    /// The first lines as one text. Now and then the last one has no LF.
    pub fn text(mut self, count: usize) -> Vec<u8> {
        self.lines.truncate(count);
        let mut text = self.lines.join(&b'\n');
        if !text.is_empty() && self.random.one_in(2) {
            text.push(b'\n');
        }
        text
    }

    /// Returns the answer; `None` for a BAD line.
    pub fn line(&mut self, line: Vec<u8>) -> Option<u8> {
        let played = self.player.play(&line);
        self.lines.push(line);
        played.map(|played| played.answer)
    }

    /// In as many lines as need be; none for no tick. In half of the waits some are lines of inputs.
    pub fn ticks(&mut self, count: u32) {
        let (first, last) = match self.random.one_in(2) {
            true => self.random.pick(&BY_INPUTS),
            false => (0, 0),
        };
        let first = first.min(count);
        let last = last.min(count - first);
        self.inputs(first);
        self.held(count - first - last);
        self.inputs(last);
    }

    /// Ticks with the inputs held.
    pub fn held(&mut self, count: u32) {
        let mut left = count;
        while left > 0 {
            let now = left.min(TICKS_MAX);
            self.line(format!("T {now}").into_bytes());
            left -= now;
        }
    }

    /// So many lines, each of them one tick.
    pub fn inputs(&mut self, count: u32) {
        for _ in 0..count {
            let inputs = hex::encode(&sample::bytes(&mut self.random, 64));
            let line = "I ".to_string() + &recase(&mut self.random, inputs);
            self.line(line.into_bytes());
        }
    }

    pub fn say_on(&mut self, port: u8, body: &[u8]) -> u8 {
        let digits = recase(&mut self.random, hex::encode(body));
        let line = format!("{port} {digits}").into_bytes();
        self.remember(body);
        self.line(line).unwrap_or(0)
    }

    /// On one port or the other.
    pub fn say(&mut self, body: &[u8]) -> u8 {
        let port = self.random.pick(&[1, 2]);
        self.say_on(port, body)
    }

    /// On one port, and then perhaps once more, mostly on the other.
    pub fn send(&mut self, draft: &Draft) -> u8 {
        let (first, second) = self.random.pick(&[(1, 2), (2, 1)]);
        let body = draft.body();
        let number = self.say_on(first, &body);
        if self.copied() {
            let same = self.copies != Copies::NowAndThen && self.random.one_in(6);
            self.say_on(if same { first } else { second }, &body);
        }
        number
    }

    fn copied(&mut self) -> bool {
        match self.copies {
            Copies::NowAndThen => self.random.one_in(5),
            Copies::Always => true,
            Copies::Never => false,
            Copies::AlmostAlways => !self.random.one_in(12),
        }
    }

    /// The next of a list that is gone through from any start, again and again.
    pub fn next_of<T: Copy>(&mut self, name: &'static str, list: &[T]) -> T {
        let start = self.random.below(list.len());
        let turn = self.turns.entry(name).or_insert(start);
        *turn = (*turn + 1) % list.len();
        list[*turn]
    }

    fn remember(&mut self, body: &[u8]) {
        if self.said.len() == MEMORY {
            self.said.remove(0);
        }
        self.said.push(body.to_vec());
    }

    /// One of the last bodies again, on any port. There must be one.
    pub fn echo(&mut self) {
        let span = self.random.pick(&[3, 12, MEMORY]).min(self.said.len());
        let back = 1 + self.random.below(span);
        let body = self.said[self.said.len() - back].clone();
        self.say(&body);
    }
}
