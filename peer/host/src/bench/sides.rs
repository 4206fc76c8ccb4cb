//! The two sides: an agent and the two calls on it, in the same shape.

use host::library::{saturn_frame, saturn_tick, SaturnAgent};
use host::second::{peer_frame, peer_tick};
use host::state;
use peer::module::{Agent, Fixed, REPLY_ROOM};

type Tick<A> = unsafe extern "C" fn(*mut A, *const u8, usize) -> u8;
type Frame<A> = unsafe extern "C" fn(*mut A, u8, *const u8, usize, *mut u8, usize, *mut u16) -> u8;

pub struct Side<A> {
    pub agent: A,
    pub reply: [u8; REPLY_ROOM],
    pub sent: u16,
    tick: Tick<A>,
    frame: Frame<A>,
}

impl Side<SaturnAgent> {
    pub fn library() -> Self {
        Side {
            agent: state::BLANK,
            reply: [0; REPLY_ROOM],
            sent: 0,
            tick: saturn_tick,
            frame: saturn_frame,
        }
    }
}

impl Side<Agent> {
    pub fn second() -> Self {
        Side {
            agent: Agent::power_up(1, 2, 0, Fixed::DOORS),
            reply: [0; REPLY_ROOM],
            sent: 0,
            tick: peer_tick,
            frame: peer_frame,
        }
    }
}

/// Neither the reply buffer nor anything else is cleared between calls.
impl<A> Side<A> {
    pub fn tick(&mut self, inputs: &[u8]) -> u8 {
        unsafe { (self.tick)(&mut self.agent, inputs.as_ptr(), inputs.len()) }
    }

    pub fn frame(&mut self, body: &[u8]) -> u8 {
        let (reply, room) = (self.reply.as_mut_ptr(), self.reply.len());
        unsafe {
            (self.frame)(
                &mut self.agent,
                1,
                body.as_ptr(),
                body.len(),
                reply,
                room,
                &mut self.sent,
            )
        }
    }
}

/// What a workload sets in an agent without a call.
pub trait Settable {
    fn set(&mut self, agent: &Agent);
    /// As if no request were taken in the cycle and all clocks were at their start.
    fn rewind(&mut self);
}

impl Settable for SaturnAgent {
    fn set(&mut self, agent: &Agent) {
        *self = state::laid_out(agent, &state::BLANK);
    }

    fn rewind(&mut self) {
        (self.taken, self.silence, self.idle) = (0, 0, 0);
    }
}

impl Settable for Agent {
    fn set(&mut self, agent: &Agent) {
        *self = agent.clone();
    }

    fn rewind(&mut self) {
        (self.taken, self.since_sync, self.since_output) = (0, 0, 0);
    }
}
