//! The frame call: a body received on a port, its effect, and perhaps a reply.

use super::reply::Reply;
use super::Agent;
use crate::body::{self, Body};
use crate::frame::{self, typ, Frame, BROADCAST};
use crate::refusal::Refusal;

/// The longest reply there is, with both flags.
pub const REPLY_ROOM: usize = 545;

/// The address of all modules.
const MODULES: u8 = 0x90;

#[derive(Clone, Copy, Debug, PartialEq, Eq)]
pub struct Outcome {
    pub number: u8,
    /// The length of the reply in the buffer; 0 for none.
    pub sent: usize,
}

impl Agent {
    pub fn frame(&mut self, port: u8, received: &[u8], buffer: &mut [u8]) -> Outcome {
        let outcome = self
            .check_host(port, buffer)
            .and_then(|()| self.take_in(received));
        match outcome {
            Ok(None) => Outcome { number: 0, sent: 0 },
            Ok(Some(reply)) => Outcome {
                number: 0,
                sent: self.send(port, &reply, buffer),
            },
            Err(refusal) => Outcome {
                number: refusal.number(),
                sent: 0,
            },
        }
    }

    fn check_host(&self, port: u8, buffer: &[u8]) -> Result<(), Refusal> {
        if !self.sound() {
            return Err(Refusal::Unsound);
        }
        if buffer.len() < REPLY_ROOM {
            return Err(Refusal::Room);
        }
        if ![1, 2].contains(&port) {
            return Err(Refusal::Host);
        }
        Ok(())
    }

    fn take_in(&mut self, received: &[u8]) -> Result<Option<Reply>, Refusal> {
        let outcome = self.receive(received).and_then(|body| self.obey(&body));
        if let Err(refusal) = outcome {
            self.note(refusal);
        }
        outcome
    }

    /// Numbers 1 to 7.
    fn receive(&self, received: &[u8]) -> Result<Body, Refusal> {
        let body = body::read(received)?;
        if ![self.own_address(), MODULES, BROADCAST].contains(&body.address) {
            return Err(Refusal::OtherAddress);
        }
        if !served(body.application[0]) {
            return Err(Refusal::UnknownTyp);
        }
        Ok(body)
    }

    /// Numbers 8 and 9, then those of the frame's own rules.
    fn obey(&mut self, body: &Body) -> Result<Option<Reply>, Refusal> {
        let (frame, data) = frame::form(body)?;
        // The longer form is for modules of another kind.
        if matches!(frame, Frame::SidAssignmentSil4 { .. }) {
            return Err(Refusal::Form);
        }
        frame::check_crc(body)?;
        match frame {
            Frame::Sync { src, cyc } => self.hear(src, cyc).map(Some),
            Frame::SafeRead { head, span } => {
                self.take(head).map(|()| Some(Reply::ToRead { head, span }))
            }
            Frame::SafeWrite { head, span } => {
                self.take(head)?;
                self.write(span.add, data).map(|()| None)
            }
            Frame::TidAssignment { iid, tid, .. } => self.assign_tid(iid, tid).map(|()| None),
            Frame::SidAssignmentSil2(assignment) => self.assign_sid(&assignment).map(Some),
            _ => unreachable!("the served TYPs have no other frames"),
        }
    }
}

fn served(typ: u8) -> bool {
    matches!(
        typ,
        typ::SYNC | typ::SAFE_REQUEST | typ::TID_ASSIGNMENT | typ::SID_ASSIGNMENT
    )
}
