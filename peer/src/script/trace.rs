//! What the trace adds to a line of the script program: the reply and the registers.

use super::{Played, Player};
use crate::hex;
use std::io::{self, Write};

pub fn print(output: &mut impl Write, player: &Player, played: &Played) -> io::Result<()> {
    let reply = match &played.reply[..] {
        [] => "-".to_string(),
        bytes => hex::encode(bytes),
    };
    let registers = hex::encode(&player.agent.registers.bytes);
    write!(output, " {reply} {registers}")
}
