//! The second program's own module behind the two programs, with either limit of requests, right or wrong in one way.

use crate::module::{Agent, Fixed};
use crate::script::{self, Player, Program};
use crate::strike::{Printer, Programs};
use std::io::{self, Write};

/// What a wrong module does beyond: the module before a line, after it, and the answer.
pub type Fault = fn(&Agent, &mut Agent, u8);

pub fn right(fixed: Fixed) -> Programs<'static> {
    wrong(fixed, |_, _, _| {})
}

pub fn wrong(fixed: Fixed, fault: Fault) -> Programs<'static> {
    Programs {
        trace: Printer::new(move |text| play(Program::Trace, fixed, fault, text)),
        script: Printer::new(move |text| play(Program::Script, fixed, fault, text)),
    }
}

fn play(program: Program, fixed: Fixed, fault: Fault, text: &[u8]) -> io::Result<Vec<u8>> {
    let mut player = Player::power_up_as(fixed);
    let mut output = program.header().to_vec();
    for (number, line) in (1..).zip(text.split_inclusive(|&byte| byte == b'\n')) {
        let before = player.agent.clone();
        match player.play(line.strip_suffix(b"\n").unwrap_or(line)) {
            None => writeln!(output, "{number} BAD")?,
            Some(played) => {
                fault(&before, &mut player.agent, played.answer);
                script::print(program, &mut output, number, &player, &played)?;
            }
        }
    }
    Ok(output)
}
