//! Reading a frame from a body: numbers 1 to 5 by the body, then 7 (TYP), 8 (form), 9 (safety CRC).

use super::*;
use crate::body::{self, Body};
use crate::crc::{self, crc};
use crate::fields::Reader;
use crate::refusal::Refusal;

#[derive(Clone, Debug, PartialEq, Eq)]
pub struct Received {
    pub address: u8,
    pub frame: Frame,
    pub data: Vec<u8>,
}

pub fn read(received: &[u8]) -> Result<Received, Refusal> {
    let body = body::read(received)?;
    let (frame, data) = form(&body)?;
    check_crc(&body)?;
    Ok(Received {
        address: body.address,
        frame,
        data: data.to_vec(),
    })
}

/// The frame and its data, its safety CRC not yet looked at: numbers 7 and 8.
pub fn form(body: &Body) -> Result<(Frame, &[u8]), Refusal> {
    let (content, _) = parts(body).ok_or(Refusal::UnknownTyp)?;
    let (frame, data) = parse(content).ok_or(Refusal::Form)?;
    if matches!(frame, Frame::Sync { .. }) && body.address != BROADCAST {
        return Err(Refusal::Form);
    }
    Ok((frame, data))
}

/// Numbers 7 and 9.
pub fn check_crc(body: &Body) -> Result<(), Refusal> {
    let (content, tail) = parts(body).ok_or(Refusal::UnknownTyp)?;
    let right = tail.is_empty() || tail == crc(crc::SAFETY, content).to_be_bytes();
    right.then_some(()).ok_or(Refusal::SafetyCrc)
}

/// The content and the place of the safety CRC, which is empty for a TYP without one;
/// `None` for a TYP that is not built.
fn parts(body: &Body) -> Option<(&[u8], &[u8])> {
    let application = &body.application;
    // A body has at least four bytes of application data, so two can always be set apart.
    let crc_length = if safe(application[0])? { 2 } else { 0 };
    Some(application.split_at(application.len() - crc_length))
}

/// The frame and its data; `None` if the length or COM is wrong for the TYP.
fn parse(content: &[u8]) -> Option<(Frame, &[u8])> {
    let mut fields = Reader::new(content);
    let parsed = match fields.u8()? {
        typ::SYNC => (sync(&mut fields)?, &[][..]),
        typ::SAFE_REQUEST => safe_request(&mut fields)?,
        typ::PLAIN_REQUEST => plain_request(&mut fields)?,
        typ::SAFE_RESPONSE => safe_response(&mut fields)?,
        typ::PLAIN_RESPONSE => plain_response(&mut fields)?,
        typ::TID_ASSIGNMENT => (tid_assignment(&mut fields)?, &[][..]),
        typ::SID_ASSIGNMENT => (sid_assignment(&mut fields)?, &[][..]),
        typ::ACKNOWLEDGEMENT => (acknowledgement(&mut fields)?, &[][..]),
        typ::INVARIANTS => (invariants(&mut fields)?, &[][..]),
        _ => return None,
    };
    fields.at_end().then_some(parsed)
}

fn head(fields: &mut Reader) -> Option<Head> {
    Some(Head {
        dest: fields.u24()?,
        src: fields.u24()?,
        cyc: fields.u8()?,
        seq: fields.u8()?,
    })
}

fn span(fields: &mut Reader) -> Option<Span> {
    Some(Span {
        datl: fields.u8()?,
        add: fields.u8()?,
    })
}

fn data<'a>(fields: &mut Reader<'a>, span: Span) -> Option<&'a [u8]> {
    fields.bytes(span.datl as usize)
}

fn sync(fields: &mut Reader) -> Option<Frame> {
    let (src, cyc) = (fields.u24()?, fields.u8()?);
    Some(Frame::Sync { src, cyc })
}

fn safe_request<'a>(fields: &mut Reader<'a>) -> Option<(Frame, &'a [u8])> {
    let (head, com, span) = (head(fields)?, fields.u8()?, span(fields)?);
    match com {
        com::SAFE_READ => Some((Frame::SafeRead { head, span }, &[])),
        com::SAFE_WRITE => Some((Frame::SafeWrite { head, span }, data(fields, span)?)),
        _ => None,
    }
}

fn plain_request<'a>(fields: &mut Reader<'a>) -> Option<(Frame, &'a [u8])> {
    let (src, com, span) = (fields.u8()?, fields.u8()?, span(fields)?);
    match com {
        com::PLAIN_READ => Some((Frame::PlainRead { src, span }, &[])),
        com::PLAIN_WRITE => Some((Frame::PlainWrite { src, span }, data(fields, span)?)),
        _ => None,
    }
}

fn safe_response<'a>(fields: &mut Reader<'a>) -> Option<(Frame, &'a [u8])> {
    let (head, com, span) = (head(fields)?, fields.u8()?, span(fields)?);
    if !safe_response_allowed(com, span.datl) {
        return None;
    }
    let data = data(fields, span)?;
    let stat = fields.u8()?;
    let frame = Frame::SafeResponse {
        head,
        com,
        span,
        stat,
    };
    Some((frame, data))
}

fn plain_response<'a>(fields: &mut Reader<'a>) -> Option<(Frame, &'a [u8])> {
    let (src, com, span) = (fields.u8()?, fields.u8()?, span(fields)?);
    if com == com::PLAIN_TO_SYNC {
        let data = data(fields, span)?;
        let stat = fields.u8()?;
        return Some((Frame::PlainSyncAnswer { src, span, stat }, data));
    }
    if !plain_response_allowed(com, span.datl) {
        return None;
    }
    Some((Frame::PlainResponse { src, com, span }, data(fields, span)?))
}

fn tid_assignment(fields: &mut Reader) -> Option<Frame> {
    let (src, iid, tid) = (fields.u8()?, fields.u64()?, fields.u8()?);
    Some(Frame::TidAssignment { src, iid, tid })
}

/// Both forms have the same TYP; the length tells them apart.
fn sid_assignment(fields: &mut Reader) -> Option<Frame> {
    let first = SidAssignment {
        src: fields.u24()?,
        sec: fields.u32()?,
        mac: fields.u64()?,
        sid: fields.u24()?,
    };
    if fields.at_end() {
        return Some(Frame::SidAssignmentSil2(first));
    }
    let (sid2, src2) = (fields.u24()?, fields.u24()?);
    Some(Frame::SidAssignmentSil4 { first, sid2, src2 })
}

fn acknowledgement(fields: &mut Reader) -> Option<Frame> {
    let (src, dst) = (fields.u24()?, fields.u24()?);
    let (sec, mac) = (fields.u32()?, fields.u64()?);
    Some(Frame::Acknowledgement { src, dst, sec, mac })
}

fn invariants(fields: &mut Reader) -> Option<Frame> {
    let head = head(fields)?;
    let (configuration, logic) = (fields.u16()?, fields.u16()?);
    Some(Frame::Invariants {
        head,
        configuration,
        logic,
    })
}
