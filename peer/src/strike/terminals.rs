//! What the terminals show, worked out from the lines of a script, the answers and the modes alone: the byte of the
//! last accepted write that covered each since the module last entered RUN, or 00h.

use super::printed::Printed;
use super::question::Ways;
use crate::frame::{self, Frame};
use crate::hex;
use crate::script::{parse, Line};

/// The register of the first terminal.
const FIRST: usize = 0x80;
const COUNT: usize = 64;

pub struct Terminals {
    running: bool,
    pub shown: [u8; COUNT],
}

/// How many bytes were compared, and how many of them were not 00h.
#[derive(Clone, Copy, Default)]
pub struct Seen {
    pub bytes: usize,
    pub lit: usize,
}

impl Terminals {
    pub fn power_up() -> Terminals {
        Terminals {
            running: false,
            shown: [0; COUNT],
        }
    }

    /// After a line with this answer, which left the module in RUN or not. A line of many ticks can leave RUN but not
    /// enter it: that takes an accepted sync, a line of its own. So no entry is overlooked.
    pub fn after(&mut self, line: &[u8], answer: u8, running: bool) {
        let entered = running && !self.running;
        self.running = running;
        if entered || !running {
            self.shown = [0; COUNT];
        } else if let Some((add, data)) = accepted_write(line, answer) {
            self.cover(add, &data);
        }
    }

    fn cover(&mut self, add: u8, data: &[u8]) {
        for (register, &byte) in (add as usize..).zip(data) {
            let terminal = register.checked_sub(FIRST);
            if let Some(shown) = terminal.and_then(|place| self.shown.get_mut(place)) {
                *shown = byte;
            }
        }
    }
}

/// ADD and the data; `None` for any other line.
fn accepted_write(line: &[u8], answer: u8) -> Option<(u8, Vec<u8>)> {
    let Line::Frame { body, .. } = parse(line)? else {
        return None;
    };
    let received = frame::read(&body).ok()?;
    match received.frame {
        Frame::SafeWrite { span, .. } if answer == 0 => Some((span.add, received.data)),
        _ => None,
    }
}

/// Registers 80h to BFh of the trace, after every line that is not BAD, against the watcher.
pub fn judge<L: AsRef<[u8]>>(lines: &[L], trace: &Printed) -> Result<Seen, Ways> {
    let mut terminals = Terminals::power_up();
    let mut seen = Seen::default();
    for (place, line) in lines.iter().enumerate() {
        if trace.texts[place] == b"BAD" {
            continue;
        }
        let fields = trace.answer(place).zip(trace.running(place));
        let fields = fields.zip(trace.registers(place));
        let ((answer, running), registers) = fields.ok_or_else(|| no_fields(place, trace))?;
        terminals.after(line.as_ref(), answer, running);
        let given = &registers[FIRST..FIRST + COUNT];
        if given != terminals.shown {
            return Err(ways(place, &terminals.shown, given));
        }
        seen.bytes += given.len();
        seen.lit += given.iter().filter(|&&byte| byte != 0).count();
    }
    Ok(seen)
}

fn ways(place: usize, told: &[u8], given: &[u8]) -> Ways {
    let number = place + 1;
    [("the watcher works out", told), ("80h to BFh are", given)].map(|(what, bytes)| {
        let what = format!("after line {number} {what}");
        (what, hex::encode(bytes))
    })
}

fn no_fields(place: usize, trace: &Printed) -> Ways {
    let text = String::from_utf8_lossy(&trace.texts[place]);
    let wanted = "an answer, a mode and 256 registers".to_string();
    [
        (format!("line {} has to show", place + 1), wanted),
        ("it shows".to_string(), text.to_string()),
    ]
}
