//! The body between two flags: address, application data and FCS, read (numbers 1 to 5) and
//! laid down between its flags (numbers 5, 8 and 20).

use crate::crc::{self, crc};
use crate::refusal::Refusal;
use crate::stuffing::{self, FLAG};
use std::ops::RangeInclusive;

pub const RECEIVED: RangeInclusive<usize> = 7..=543;
pub const UNSTUFFED: RangeInclusive<usize> = 7..=272;
pub const APPLICATION: RangeInclusive<usize> = 4..=269;

#[derive(Clone, Debug, PartialEq, Eq)]
pub struct Body {
    pub address: u8,
    pub application: Vec<u8>,
}

pub fn reserved(address: u8) -> bool {
    matches!(address, 0x00 | 0x7D | 0x7E | 0x91..=0xEF | 0xF9..=0xFE)
}

pub fn read(received: &[u8]) -> Result<Body, Refusal> {
    if !RECEIVED.contains(&received.len()) {
        return Err(Refusal::BodySize);
    }
    let address = received[0];
    let mut application = stuffing::unstuff(&received[1..]).ok_or(Refusal::Stuffing)?;
    if !UNSTUFFED.contains(&(1 + application.len())) {
        return Err(Refusal::UnstuffedSize);
    }
    let fcs = application.split_off(application.len() - 2);
    if fcs != fcs_of(address, &application) {
        return Err(Refusal::Fcs);
    }
    if reserved(address) {
        return Err(Refusal::ReservedAddress);
    }
    Ok(Body {
        address,
        application,
    })
}

/// Lays flag, body and flag down at the start of the buffer and returns their length.
/// No byte after the closing flag changes, and none at all for a refusal.
pub fn lay(address: u8, application: &[u8], buffer: &mut [u8]) -> Result<usize, Refusal> {
    if reserved(address) {
        return Err(Refusal::ReservedAddress);
    }
    if !APPLICATION.contains(&application.len()) {
        return Err(Refusal::Form);
    }
    let body = enclose(address, application);
    let length = body.len() + 2;
    if length > buffer.len() {
        return Err(Refusal::Room);
    }
    buffer[0] = FLAG;
    buffer[1..length - 1].copy_from_slice(&body);
    buffer[length - 1] = FLAG;
    Ok(length)
}

/// The body without its flags, whatever its address and length.
pub fn enclose(address: u8, application: &[u8]) -> Vec<u8> {
    enclose_with(address, application, fcs_of(address, application))
}

/// The same with any two bytes in the place of the FCS.
pub fn enclose_with(address: u8, application: &[u8], fcs: [u8; 2]) -> Vec<u8> {
    let mut body = vec![address];
    body.extend(stuffing::stuff(application));
    body.extend(stuffing::stuff(&fcs));
    body
}

pub fn fcs_of(address: u8, application: &[u8]) -> [u8; 2] {
    let mut covered = vec![address];
    covered.extend(application);
    crc(crc::FCS, &covered).to_be_bytes()
}
