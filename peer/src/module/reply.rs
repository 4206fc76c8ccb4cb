//! Replies: built after the effect, sent to all concentrators unless CONF forbids it.

use super::registers::*;
use super::Agent;
use crate::frame::{self, com, Frame, Head, Span, SAFE_RESPONSE_DATL_MAX};

/// The address of all concentrators.
const CONCENTRATORS: u8 = 0xF0;

#[derive(Clone, Copy, Debug, PartialEq, Eq)]
pub(super) enum Reply {
    ToSync { dest: u32 },
    ToRead { head: Head, span: Span },
    Acknowledgement { dst: u32, sec: u32 },
}

impl Agent {
    /// Returns the sent length. What was sent has shown the bits of STATUT, so they go.
    pub(super) fn send(&mut self, port: u8, reply: &Reply, buffer: &mut [u8]) -> usize {
        if self.registers[CONF] & SILENT != 0 {
            return 0;
        }
        let (frame, data) = self.build(port, reply);
        let length = frame::write(CONCENTRATORS, &frame, &data, buffer)
            .expect("a reply is a right frame and fits");
        self.registers[STATUT] &= REP;
        length
    }

    fn build(&self, port: u8, reply: &Reply) -> (Frame, Vec<u8>) {
        match *reply {
            Reply::ToSync { dest } => {
                let span = Span {
                    datl: self.registers[SZ_REF],
                    add: self.registers[AD_REF],
                };
                let coms = [com::SAFE_TO_SYNC, com::ERROR_TO_SYNC];
                self.response(port, dest, !self.cycle, coms, span)
            }
            Reply::ToRead { head, span } => {
                let coms = [com::SAFE_TO_READ, com::ERROR_TO_READ];
                self.response(port, head.src, head.seq.wrapping_add(1), coms, span)
            }
            Reply::Acknowledgement { dst, sec } => (self.acknowledgement(dst, sec), Vec::new()),
        }
    }

    /// With the first COM if the span can be read; else an error with the other COM, which
    /// repeats the address and carries no data.
    fn response(
        &self,
        port: u8,
        dest: u32,
        seq: u8,
        coms: [u8; 2],
        span: Span,
    ) -> (Frame, Vec<u8>) {
        let stat = self.stat(port);
        let (com, datl, data) = match self.data(span, stat) {
            Some(data) => (coms[0], span.datl, data),
            None => (coms[1], 0, Vec::new()),
        };
        let frame = Frame::SafeResponse {
            head: Head {
                dest,
                src: self.registers.sid(),
                cyc: self.cycle,
                seq,
            },
            com,
            span: Span { datl, ..span },
            stat,
        };
        (frame, data)
    }

    fn acknowledgement(&self, dst: u32, sec: u32) -> Frame {
        Frame::Acknowledgement {
            src: self.registers.sid(),
            dst,
            sec,
            mac: self.registers.mac(),
        }
    }

    fn stat(&self, port: u8) -> u8 {
        match port {
            2 => self.registers[STATUT] | PTS,
            _ => self.registers[STATUT],
        }
    }

    /// The registers of the span, STATUT as STAT shows it; `None` if it cannot be read.
    fn data(&self, span: Span, stat: u8) -> Option<Vec<u8>> {
        if !(1..=SAFE_RESPONSE_DATL_MAX).contains(&span.datl) {
            return None;
        }
        let mut shown = self.registers.clone();
        shown[STATUT] = stat;
        let start = span.add as usize;
        let data = shown.bytes.get(start..start + span.datl as usize)?;
        Some(data.to_vec())
    }
}
