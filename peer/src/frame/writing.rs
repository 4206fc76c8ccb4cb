//! Writing a frame into a buffer: numbers 5 (address), 8 (a frame that no reader would read)
//! and 20 (room), in this order.

use super::*;
use crate::body;
use crate::crc::{self, crc};
use crate::fields::Writer;
use crate::refusal::Refusal;

/// Returns the length with both flags. A refusal changes no byte of the buffer.
pub fn write(address: u8, frame: &Frame, data: &[u8], buffer: &mut [u8]) -> Result<usize, Refusal> {
    if body::reserved(address) {
        return Err(Refusal::ReservedAddress);
    }
    if !allowed(address, frame, data) {
        return Err(Refusal::Form);
    }
    body::lay(address, &seal(content(frame, data)), buffer)
}

fn allowed(address: u8, frame: &Frame, data: &[u8]) -> bool {
    let sids_fit = sids(frame).iter().all(|&sid| sid <= SID_MAX);
    let form_right = match *frame {
        Frame::Sync { .. } => address == BROADCAST,
        Frame::SafeResponse { com, span, .. } => safe_response_allowed(com, span.datl),
        Frame::PlainResponse { com, span, .. } => plain_response_allowed(com, span.datl),
        _ => true,
    };
    sids_fit && form_right && data.len() == data_length(frame)
}

fn sids(frame: &Frame) -> Vec<u32> {
    match *frame {
        Frame::Sync { src, .. } => vec![src],
        Frame::SafeRead { head, .. }
        | Frame::SafeWrite { head, .. }
        | Frame::SafeResponse { head, .. }
        | Frame::Invariants { head, .. } => vec![head.dest, head.src],
        Frame::SidAssignmentSil2(first) => vec![first.src, first.sid],
        Frame::SidAssignmentSil4 { first, sid2, src2 } => vec![first.src, first.sid, sid2, src2],
        Frame::Acknowledgement { src, dst, .. } => vec![src, dst],
        Frame::PlainRead { .. }
        | Frame::PlainWrite { .. }
        | Frame::PlainSyncAnswer { .. }
        | Frame::PlainResponse { .. }
        | Frame::TidAssignment { .. } => vec![],
    }
}

/// The count of data bytes that the frame carries; in a read request DATL asks, but carries none.
fn data_length(frame: &Frame) -> usize {
    match *frame {
        Frame::SafeWrite { span, .. }
        | Frame::PlainWrite { span, .. }
        | Frame::SafeResponse { span, .. }
        | Frame::PlainSyncAnswer { span, .. }
        | Frame::PlainResponse { span, .. } => span.datl as usize,
        _ => 0,
    }
}

/// The content, followed by its safety CRC if the TYP is a safe one.
pub fn seal(content: Vec<u8>) -> Vec<u8> {
    if safe(content[0]) != Some(true) {
        return content;
    }
    let check = crc(crc::SAFETY, &content);
    Writer::default().bytes(&content).u16(check).done()
}

/// The application data without the safety CRC, laid out whether the frame is allowed or not.
pub fn content(frame: &Frame, data: &[u8]) -> Vec<u8> {
    let fields = match *frame {
        Frame::Sync { src, cyc } => begin(typ::SYNC).u24(src).u8(cyc),
        Frame::SafeRead { head, span } => {
            request(typ::SAFE_REQUEST, head, com::SAFE_READ, span).bytes(data)
        }
        Frame::SafeWrite { head, span } => {
            request(typ::SAFE_REQUEST, head, com::SAFE_WRITE, span).bytes(data)
        }
        Frame::PlainRead { src, span } => {
            plain(typ::PLAIN_REQUEST, src, com::PLAIN_READ, span).bytes(data)
        }
        Frame::PlainWrite { src, span } => {
            plain(typ::PLAIN_REQUEST, src, com::PLAIN_WRITE, span).bytes(data)
        }
        Frame::SafeResponse {
            head,
            com,
            span,
            stat,
        } => request(typ::SAFE_RESPONSE, head, com, span)
            .bytes(data)
            .u8(stat),
        Frame::PlainSyncAnswer { src, span, stat } => {
            plain(typ::PLAIN_RESPONSE, src, com::PLAIN_TO_SYNC, span)
                .bytes(data)
                .u8(stat)
        }
        Frame::PlainResponse { src, com, span } => {
            plain(typ::PLAIN_RESPONSE, src, com, span).bytes(data)
        }
        Frame::TidAssignment { src, iid, tid } => {
            begin(typ::TID_ASSIGNMENT).u8(src).u64(iid).u8(tid)
        }
        Frame::SidAssignmentSil2(first) => assignment(first),
        Frame::SidAssignmentSil4 { first, sid2, src2 } => assignment(first).u24(sid2).u24(src2),
        Frame::Acknowledgement { src, dst, sec, mac } => begin(typ::ACKNOWLEDGEMENT)
            .u24(src)
            .u24(dst)
            .u32(sec)
            .u64(mac),
        Frame::Invariants {
            head,
            configuration,
            logic,
        } => with_head(typ::INVARIANTS, head)
            .u16(configuration)
            .u16(logic),
    };
    fields.done()
}

fn begin(typ: u8) -> Writer {
    Writer::default().u8(typ)
}

fn with_head(typ: u8, head: Head) -> Writer {
    begin(typ)
        .u24(head.dest)
        .u24(head.src)
        .u8(head.cyc)
        .u8(head.seq)
}

fn request(typ: u8, head: Head, com: u8, span: Span) -> Writer {
    with_head(typ, head).u8(com).u8(span.datl).u8(span.add)
}

fn plain(typ: u8, src: u8, com: u8, span: Span) -> Writer {
    begin(typ).u8(src).u8(com).u8(span.datl).u8(span.add)
}

fn assignment(first: SidAssignment) -> Writer {
    begin(typ::SID_ASSIGNMENT)
        .u24(first.src)
        .u32(first.sec)
        .u64(first.mac)
        .u24(first.sid)
}
