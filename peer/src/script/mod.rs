//! The script program and the trace program: both play lines on a module from power-up and
//! print what became of each line, the trace with the reply and all registers.

mod line;
mod lines;
mod player;
mod trace;

pub use line::{parse, Line, LINE_MAX, TICKS_MAX};
pub use lines::Lines;
pub use player::{Played, Player};

use std::io::{self, Read, Write};

#[derive(Clone, Copy, Debug, PartialEq, Eq)]
pub enum Program {
    Script,
    Trace,
}

impl Program {
    pub(crate) fn header(self) -> &'static [u8] {
        match self {
            Program::Script => b"LINE ANSWER MODE CYC\n",
            Program::Trace => b"LINE ANSWER MODE CYC REPLY REGISTERS\n",
        }
    }
}

pub fn run(program: Program, input: impl Read, mut output: impl Write) -> io::Result<()> {
    let mut lines = Lines::new(input);
    let mut player = Player::power_up();
    let mut number = 0_u64;
    output.write_all(program.header())?;
    loop {
        if lines.would_wait() {
            output.flush()?;
        }
        let Some(line) = lines.next_line()? else {
            return output.flush();
        };
        number += 1;
        match player.play(line) {
            None => writeln!(output, "{number} BAD")?,
            Some(played) => print(program, &mut output, number, &player, &played)?,
        }
    }
}

pub(crate) fn print(
    program: Program,
    output: &mut impl Write,
    number: u64,
    player: &Player,
    played: &Played,
) -> io::Result<()> {
    let (mode, cycle) = (player.mode_letter(), player.agent.cycle);
    write!(output, "{number} {} {mode} {cycle:02X}", played.answer)?;
    if program == Program::Trace {
        trace::print(output, player, played)?;
    }
    writeln!(output)
}
