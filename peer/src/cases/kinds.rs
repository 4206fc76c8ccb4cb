//! Frames in the form of the case lines: a kind and its fields, 24-bit fields in four bytes.

use crate::fields::{Reader, Writer};
use crate::frame::{Frame, Head, SidAssignment, Span};

pub const KINDS: u8 = 0x0D;

/// `None` for a kind that does not exist and for too few bytes.
pub fn frame_from(kind: u8, fields: &mut Reader) -> Option<Frame> {
    Some(match kind {
        0x00 => Frame::Sync {
            src: fields.u32()?,
            cyc: fields.u8()?,
        },
        0x01 => Frame::SafeRead {
            head: head(fields)?,
            span: span(fields)?,
        },
        0x02 => Frame::SafeWrite {
            head: head(fields)?,
            span: span(fields)?,
        },
        0x03 => Frame::PlainRead {
            src: fields.u8()?,
            span: span(fields)?,
        },
        0x04 => Frame::PlainWrite {
            src: fields.u8()?,
            span: span(fields)?,
        },
        0x05 => Frame::SafeResponse {
            head: head(fields)?,
            com: fields.u8()?,
            span: span(fields)?,
            stat: fields.u8()?,
        },
        0x06 => Frame::PlainSyncAnswer {
            src: fields.u8()?,
            span: span(fields)?,
            stat: fields.u8()?,
        },
        0x07 => Frame::PlainResponse {
            src: fields.u8()?,
            com: fields.u8()?,
            span: span(fields)?,
        },
        0x08 => Frame::TidAssignment {
            src: fields.u8()?,
            iid: fields.u64()?,
            tid: fields.u8()?,
        },
        0x09 => Frame::SidAssignmentSil2(assignment(fields)?),
        0x0A => Frame::SidAssignmentSil4 {
            first: assignment(fields)?,
            sid2: fields.u32()?,
            src2: fields.u32()?,
        },
        0x0B => Frame::Acknowledgement {
            src: fields.u32()?,
            dst: fields.u32()?,
            sec: fields.u32()?,
            mac: fields.u64()?,
        },
        0x0C => Frame::Invariants {
            head: head(fields)?,
            configuration: fields.u16()?,
            logic: fields.u16()?,
        },
        _ => return None,
    })
}

fn head(fields: &mut Reader) -> Option<Head> {
    Some(Head {
        dest: fields.u32()?,
        src: fields.u32()?,
        cyc: fields.u8()?,
        seq: fields.u8()?,
    })
}

fn span(fields: &mut Reader) -> Option<Span> {
    Some(Span {
        datl: fields.u8()?,
        add: fields.u8()?,
    })
}

fn assignment(fields: &mut Reader) -> Option<SidAssignment> {
    Some(SidAssignment {
        src: fields.u32()?,
        sec: fields.u32()?,
        mac: fields.u64()?,
        sid: fields.u32()?,
    })
}

pub fn fields_of(frame: &Frame) -> (u8, Vec<u8>) {
    let none = Writer::default();
    let (kind, fields) = match *frame {
        Frame::Sync { src, cyc } => (0x00, none.u32(src).u8(cyc)),
        Frame::SafeRead { head, span } => (0x01, put_span(put_head(head), span)),
        Frame::SafeWrite { head, span } => (0x02, put_span(put_head(head), span)),
        Frame::PlainRead { src, span } => (0x03, put_span(none.u8(src), span)),
        Frame::PlainWrite { src, span } => (0x04, put_span(none.u8(src), span)),
        Frame::SafeResponse {
            head,
            com,
            span,
            stat,
        } => (0x05, put_span(put_head(head).u8(com), span).u8(stat)),
        Frame::PlainSyncAnswer { src, span, stat } => (0x06, put_span(none.u8(src), span).u8(stat)),
        Frame::PlainResponse { src, com, span } => (0x07, put_span(none.u8(src).u8(com), span)),
        Frame::TidAssignment { src, iid, tid } => (0x08, none.u8(src).u64(iid).u8(tid)),
        Frame::SidAssignmentSil2(first) => (0x09, put_assignment(first)),
        Frame::SidAssignmentSil4 { first, sid2, src2 } => {
            (0x0A, put_assignment(first).u32(sid2).u32(src2))
        }
        Frame::Acknowledgement { src, dst, sec, mac } => {
            (0x0B, none.u32(src).u32(dst).u32(sec).u64(mac))
        }
        Frame::Invariants {
            head,
            configuration,
            logic,
        } => (0x0C, put_head(head).u16(configuration).u16(logic)),
    };
    (kind, fields.done())
}

fn put_head(head: Head) -> Writer {
    Writer::default()
        .u32(head.dest)
        .u32(head.src)
        .u8(head.cyc)
        .u8(head.seq)
}

fn put_span(fields: Writer, span: Span) -> Writer {
    fields.u8(span.datl).u8(span.add)
}

fn put_assignment(first: SidAssignment) -> Writer {
    Writer::default()
        .u32(first.src)
        .u32(first.sec)
        .u64(first.mac)
        .u32(first.sid)
}

/// How many bytes the fields of a kind have, found by asking how many suffice.
pub fn fields_width(kind: u8) -> Option<usize> {
    (0..64).find(|&width| frame_from(kind, &mut Reader::new(&[0; 64][..width])).is_some())
}
