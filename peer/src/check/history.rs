//! Register 26h and the freshness of requests over whole scripts, told by a watcher that keeps its own
//! counts. It sees calls, answers, the mode, the outputs and the settings, but none of the module's clocks,
//! no k and no mark.

use super::Tally;
use crate::frame::{self, Frame};
use crate::generate;
use crate::module::{Agent, Fixed, Mode};
use crate::script::{parse, Line, Player};

#[derive(Default)]
struct Watcher {
    /// Ticks since the last accepted sync, and whether one was refused with 22 since.
    since_sync: u32,
    outside: bool,
    /// Ticks in RUN since the last output write or the entry to RUN.
    since_output: u32,
    /// What 26h has to show.
    ground: u8,
    turn: Turn,
}

/// The requests since the last accepted sync, by their SEQ.
#[derive(Default)]
struct Turn {
    /// The number due: the first SEQ of the cycle, or the one after the last taken.
    due: u8,
    taken: Vec<u8>,
    skipped: Vec<u8>,
    /// How many skipped ones came late, in the whole script.
    late: usize,
}

pub fn run(tally: &mut Tally) {
    for (seed, limit) in [(31, 64), (32, 16), (33, 64), (34, 64)] {
        let fixed = Fixed { limit };
        let mut player = Player::power_up_as(fixed);
        let mut watcher = Watcher::default();
        let mut right = player.agent.registers[0x26] == 0;
        for line in generate::script_as(fixed, seed, 5000).split(|&byte| byte == b'\n') {
            right &= parse(line).is_none_or(|line| watcher.line(&mut player, line));
        }
        tally.check(right, &format!("26h and fresh requests, seed {seed}"));
        tally.check(watcher.turn.late >= 5, &format!("late ones, seed {seed}"));
    }
}

impl Watcher {
    /// Whether mode and 26h are as they have to be after every call of the line, and a request that is taken
    /// is fresh.
    fn line(&mut self, player: &mut Player, line: Line) -> bool {
        match line {
            Line::Ticks(count) => {
                let held = player.agent.registers.inputs();
                (0..count).all(|_| self.tick(&mut player.agent, &held))
            }
            Line::Inputs(inputs) => self.tick(&mut player.agent, &inputs),
            Line::Frame { port, ref body } => {
                let body = body.clone();
                let before = player.agent.clone();
                let answer = player.play_line(line).answer;
                // With another port nothing is read.
                let ground = match port {
                    1 | 2 => self.frame(&body, &before, answer),
                    _ => None,
                };
                let fresh = self.turn.frame(&body, &before, answer, &player.agent);
                self.judge(ground, &before, &player.agent) && fresh
            }
        }
    }

    fn tick(&mut self, agent: &mut Agent, inputs: &[u8]) -> bool {
        let before = agent.clone();
        agent.tick(inputs).expect("a sound state and 64 inputs");
        let [t, m, n] = [0x18, 0x1A, 0x1B].map(|place| before.registers[place] as u32);
        self.since_sync += 1;
        if before.mode == Mode::Fallback {
            return self.judge(None, &before, agent);
        }
        self.since_output += 1;
        let ended = self.since_sync.is_multiple_of(t);
        let ground = match (self.since_sync >= n * t, self.since_output >= m * t) {
            (true, _) => Some(1),
            (false, true) => Some(2),
            (false, false) => (ended && self.outside).then_some(5),
        };
        self.judge(ground, &before, agent)
    }

    /// The ground, if the frame has to lead from RUN to fallback.
    fn frame(&mut self, body: &[u8], before: &Agent, answer: u8) -> Option<u8> {
        let received = frame::read(body).ok()?;
        let running = before.mode == Mode::Run;
        match (received.frame, answer) {
            (Frame::Sync { .. }, 0) => {
                (self.since_sync, self.outside) = (0, false);
                if !running {
                    self.since_output = 0;
                }
            }
            (Frame::Sync { .. }, 22) => self.outside = true,
            (Frame::Sync { .. }, 12) if running => return Some(3),
            (Frame::SafeWrite { span, .. }, 0) => match span.add {
                0x17 if running && received.data == [0xAA] => return Some(4),
                0x80..=0xBF => self.since_output = 0,
                _ => {}
            },
            _ => {}
        }
        None
    }

    fn judge(&mut self, ground: Option<u8>, before: &Agent, after: &Agent) -> bool {
        let left = before.mode == Mode::Run && after.mode == Mode::Fallback;
        self.ground = ground.unwrap_or(self.ground);
        left == ground.is_some() && after.registers[0x26] == self.ground
    }
}

impl Turn {
    /// Whether a request that is taken is fresh, and one that is not fresh changes nothing that counts.
    fn frame(&mut self, body: &[u8], before: &Agent, answer: u8, after: &Agent) -> bool {
        let changed = before.mode != after.mode || outputs(before) != outputs(after);
        match (frame::read(body).map(|received| received.frame), answer) {
            (Ok(Frame::Sync { cyc, .. }), 0) => {
                *self = Turn {
                    due: 0_u8.wrapping_sub(cyc),
                    late: self.late,
                    ..Turn::default()
                };
                true
            }
            (Ok(Frame::SafeRead { head, .. } | Frame::SafeWrite { head, .. }), 0 | 16) => {
                self.take(head.seq)
            }
            // Not taken: a copy, a skipped number that is late, or any other.
            (Ok(Frame::SafeRead { head, .. } | Frame::SafeWrite { head, .. }), _) => {
                let skipped = self.skipped.contains(&head.seq);
                self.late += (answer == 13 && skipped) as usize;
                let passed = skipped || self.taken.contains(&head.seq);
                !changed && (answer != 13 || passed)
            }
            _ => true,
        }
    }

    /// The number due or one at most three past it. Those before it are skipped.
    fn take(&mut self, seq: u8) -> bool {
        let ahead = seq.wrapping_sub(self.due);
        let fresh = ahead <= 3 && !self.taken.contains(&seq) && !self.skipped.contains(&seq);
        let lost = (0..ahead).map(|step| self.due.wrapping_add(step));
        self.skipped.extend(lost);
        self.taken.push(seq);
        self.due = seq.wrapping_add(1);
        fresh
    }
}

fn outputs(agent: &Agent) -> &[u8] {
    &agent.registers.bytes[0x80..0xC0]
}
