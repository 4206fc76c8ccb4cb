//! The lines of a script played on a module from power-up, and what each came to for the line load.

use crate::frame::{self, Frame};
use crate::script::{parse, Line, Lines, Player};
use std::io::{self, Read};

#[derive(Clone)]
pub struct Course {
    player: Player,
    /// One for each line played, BAD ones too.
    pub told: Vec<Told>,
}

#[derive(Clone, Copy, Debug, Default, PartialEq, Eq)]
pub struct Told {
    /// TCYC at the line, if that is an accepted sync.
    pub opens: Option<u8>,
    /// The wire bytes of the reply, both flags included; 0 for none.
    pub sent: u16,
}

impl Course {
    pub fn power_up() -> Course {
        Course {
            player: Player::power_up(),
            told: Vec::new(),
        }
    }

    /// The next lines, until there are `most` in all; none after that is waited for.
    pub fn play(&mut self, input: impl Read, most: usize) -> io::Result<()> {
        let mut lines = Lines::new(input);
        while self.told.len() < most {
            let Some(line) = lines.next_line()? else {
                break;
            };
            let told = parse(line).map(|line| self.play_line(line));
            self.told.push(told.unwrap_or_default());
        }
        Ok(())
    }

    fn play_line(&mut self, line: Line) -> Told {
        let played = self.player.play_line(line.clone());
        let opened = played.answer == 0 && is_sync(&line);
        Told {
            opens: opened.then(|| self.player.agent.registers.tcyc()),
            sent: played.reply.len() as u16,
        }
    }
}

/// Whether the reader of frames reads a sync.
fn is_sync(line: &Line) -> bool {
    let Line::Frame { body, .. } = line else {
        return false;
    };
    frame::read(body).is_ok_and(|received| matches!(received.frame, Frame::Sync { .. }))
}
