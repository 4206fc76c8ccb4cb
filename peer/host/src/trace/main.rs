//! A trace program over the static library: a script on standard input, its trace on standard output.
//! Only the lines are read by the second program's reader; the module is the library's.

use host::library::{saturn_frame, saturn_power_up, saturn_tick, SaturnAgent, RUN};
use host::state;
use peer::hex;
use peer::module::registers::INPUTS;
use peer::module::{Fixed, REPLY_ROOM};
use peer::script::{parse, Line, Lines};
use std::io::{self, BufWriter, Write};

struct Module {
    agent: SaturnAgent,
    reply: [u8; REPLY_ROOM],
    sent: u16,
}

fn main() -> io::Result<()> {
    let mut output = BufWriter::new(io::stdout().lock());
    let mut lines = Lines::new(io::stdin().lock());
    let mut module = Module::power_up();
    let mut number = 0_u64;
    writeln!(output, "LINE ANSWER MODE CYC REPLY REGISTERS")?;
    while let Some(line) = lines.next_line()? {
        number += 1;
        match parse(line) {
            None => writeln!(output, "{number} BAD")?,
            Some(line) => {
                let answer = module.play(&line);
                writeln!(output, "{number} {answer} {}", module.shown())?;
            }
        }
    }
    output.flush()
}

impl Module {
    /// MAC 1, IID 2, VER 0, a limit of 64 requests.
    fn power_up() -> Module {
        let mut agent = state::BLANK;
        unsafe { saturn_power_up(&mut agent, 1, 2, 0, Fixed::DOORS.limit) };
        Module {
            agent,
            reply: [0; REPLY_ROOM],
            sent: 0,
        }
    }

    fn play(&mut self, line: &Line) -> u8 {
        self.sent = 0;
        let held = self.agent.regs[INPUTS].to_vec();
        let agent: *mut SaturnAgent = &mut self.agent;
        let tick = |inputs: &[u8]| unsafe { saturn_tick(agent, inputs.as_ptr(), inputs.len()) };
        match line {
            Line::Ticks(count) => (0..*count)
                .map(|_| tick(&held))
                .find(|&answer| answer != 0)
                .unwrap_or(0),
            Line::Inputs(inputs) => tick(inputs),
            Line::Frame { port, body } => unsafe {
                let reply = self.reply.as_mut_ptr();
                saturn_frame(
                    agent,
                    *port,
                    body.as_ptr(),
                    body.len(),
                    reply,
                    REPLY_ROOM,
                    &mut self.sent,
                )
            },
        }
    }

    /// Mode, cycle, reply and registers.
    fn shown(&self) -> String {
        let mode = if self.agent.mode == RUN { 'R' } else { 'F' };
        let reply = match self.sent {
            0 => "-".to_string(),
            sent => hex::encode(&self.reply[..sent as usize]),
        };
        let registers = hex::encode(&self.agent.regs);
        format!("{mode} {:02X} {reply} {registers}", self.agent.cycle)
    }
}
