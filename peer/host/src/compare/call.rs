//! One call: what the second implementation says must come of it, and what the library does.

use host::library::{saturn_frame, saturn_tick, SaturnAgent};
use host::state;
use peer::refusal::Refusal;

#[derive(Clone, Debug)]
pub enum Call {
    /// With inputs of any length.
    Tick(Vec<u8>),
    Frame {
        port: u8,
        body: Vec<u8>,
        /// The length that the library is told of the reply buffer.
        room: usize,
    },
}

/// Everything that a call leaves: its answer, the state, the reply buffer and the sent length.
#[derive(Clone, Debug, PartialEq, Eq)]
pub struct Left {
    pub answer: u8,
    pub state: SaturnAgent,
    pub reply: Vec<u8>,
    pub sent: u16,
}

/// The reply buffer as it is handed in, with as many bytes after its end, which stay.
pub fn fresh_reply(room: usize) -> Vec<u8> {
    (0..room + 64).map(|place| (place * 7 + 3) as u8).collect()
}

/// Not what any call without a frame leaves in it.
const NO_SENT: u16 = 0xBEEF;

fn wanted(before: &SaturnAgent, call: &Call) -> Left {
    let mut left = Left {
        answer: Refusal::Unsound.number(),
        state: *before,
        reply: Vec::new(),
        sent: NO_SENT,
    };
    let agent = &mut state::read(before);
    if let Call::Frame { room, .. } = call {
        left.reply = fresh_reply(*room);
        left.sent = 0;
    }
    let Some(agent) = agent else { return left };
    left.answer = match call {
        Call::Tick(inputs) => number(agent.tick(inputs)),
        Call::Frame { port, body, room } => {
            let outcome = agent.frame(*port, body, &mut left.reply[..*room]);
            left.sent = outcome.sent as u16;
            outcome.number
        }
    };
    if left.answer != Refusal::Unsound.number() {
        left.state = state::laid_out(agent, before);
    }
    left
}

/// What both leave; or, in words, the difference.
pub fn compared(before: &SaturnAgent, call: &Call) -> Result<Left, String> {
    let (wanted, given) = (wanted(before, call), given(before, call));
    match given == wanted {
        true => Ok(given),
        false => Err(format!(
            "{call:?}\nbefore {before:?}\nwanted {wanted:?}\ngiven  {given:?}"
        )),
    }
}

fn number(outcome: Result<(), Refusal>) -> u8 {
    outcome.map_or_else(Refusal::number, |()| 0)
}

/// Panics if the library writes what it is only lent to read.
fn given(before: &SaturnAgent, call: &Call) -> Left {
    let mut left = Left {
        answer: 0,
        state: *before,
        reply: Vec::new(),
        sent: NO_SENT,
    };
    let agent: *mut SaturnAgent = &mut left.state;
    left.answer = match call {
        Call::Tick(inputs) => {
            let kept = inputs.clone();
            let answer = unsafe { saturn_tick(agent, kept.as_ptr(), kept.len()) };
            assert_eq!(kept, *inputs, "the inputs were written");
            answer
        }
        Call::Frame { port, body, room } => {
            let kept = body.clone();
            left.reply = fresh_reply(*room);
            let (reply, sent) = (left.reply.as_mut_ptr(), &mut left.sent);
            let answer = unsafe {
                saturn_frame(agent, *port, kept.as_ptr(), kept.len(), reply, *room, sent)
            };
            assert_eq!(kept, *body, "the body was written");
            answer
        }
    };
    left
}
