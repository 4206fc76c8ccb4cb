//! The module of a script and what one line does to it.

use super::line::{parse, Line};
use crate::module::{Agent, Fixed, Mode, REPLY_ROOM};
use crate::refusal::Refusal;

#[derive(Clone)]
pub struct Player {
    pub agent: Agent,
    buffer: [u8; REPLY_ROOM],
}

#[derive(Clone, Debug, PartialEq, Eq)]
pub struct Played {
    pub answer: u8,
    /// The reply with both flags; empty if none was sent.
    pub reply: Vec<u8>,
}

impl Player {
    /// The module of every script: MAC 1, IID 2, VER 0, a limit of 64 requests.
    pub fn power_up() -> Player {
        Player::power_up_as(Fixed::DOORS)
    }

    /// The same module but for what is fixed at power-up.
    pub fn power_up_as(fixed: Fixed) -> Player {
        Player {
            agent: Agent::power_up(1, 2, 0, fixed),
            buffer: [0; REPLY_ROOM],
        }
    }

    /// `None` for a BAD line, which changes nothing.
    pub fn play(&mut self, line: &[u8]) -> Option<Played> {
        parse(line).map(|line| self.play_line(line))
    }

    pub fn play_line(&mut self, line: Line) -> Played {
        match line {
            Line::Ticks(count) => without_reply(self.ticks(count)),
            Line::Inputs(inputs) => without_reply(self.agent.tick(&inputs)),
            Line::Frame { port, body } => self.frame(port, &body),
        }
    }

    /// All with the inputs held.
    fn ticks(&mut self, count: u32) -> Result<(), Refusal> {
        let held = self.agent.registers.inputs();
        (0..count).try_for_each(|_| self.agent.tick(&held))
    }

    fn frame(&mut self, port: u8, body: &[u8]) -> Played {
        let outcome = self.agent.frame(port, body, &mut self.buffer);
        Played {
            answer: outcome.number,
            reply: self.buffer[..outcome.sent].to_vec(),
        }
    }

    pub fn mode_letter(&self) -> char {
        match self.agent.mode {
            Mode::Fallback => 'F',
            Mode::Run => 'R',
        }
    }
}

fn without_reply(outcome: Result<(), Refusal>) -> Played {
    Played {
        answer: outcome.map_or_else(Refusal::number, |()| 0),
        reply: Vec::new(),
    }
}
