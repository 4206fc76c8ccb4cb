//! Damage to a body on the line: flags, broken escapes, wrong check bytes, lost and added bytes.

use super::random::Random;
use super::sample;
use crate::body;
use crate::crc::{self, crc};

/// What may not follow an escape: neighbours of the two codes, the flag, and others.
pub const WRONG_CODES: [u8; 12] = [
    0x5C, 0x5F, 0x7C, 0x7D, 0x7E, 0x7F, 0x00, 0xFF, 0x31, 0x4D, 0xDD, 0xDE,
];

pub fn replaced(body: &[u8], place: usize, byte: u8) -> Vec<u8> {
    let mut body = body.to_vec();
    body[place] = byte;
    body
}

pub fn inserted(body: &[u8], place: usize, bytes: &[u8]) -> Vec<u8> {
    [&body[..place], bytes, &body[place..]].concat()
}

pub fn longer(body: &[u8], byte: u8) -> Vec<u8> {
    inserted(body, body.len(), &[byte])
}

/// Every bit of the FCS turned, one at a time, and stuffed as it then is.
pub fn fcs_bits(address: u8, application: &[u8]) -> Vec<Vec<u8>> {
    let right = u16::from_be_bytes(body::fcs_of(address, application));
    (0..16)
        .map(|bit| body::enclose_with(address, application, (right ^ 1 << bit).to_be_bytes()))
        .collect()
}

/// Every bit of address and application data turned, the FCS left.
pub fn covered_bits(address: u8, application: &[u8]) -> Vec<Vec<u8>> {
    let fcs = body::fcs_of(address, application);
    let mut bodies = Vec::new();
    for bit in 0..8 {
        bodies.push(body::enclose_with(address ^ 1 << bit, application, fcs));
        for place in 0..application.len() {
            let turned = replaced(application, place, application[place] ^ 1 << bit);
            bodies.push(body::enclose_with(address, &turned, fcs));
        }
    }
    bodies
}

/// Check bytes of other rules: swapped, inverted, without the address, over the stuffed
/// bytes, by the other polynomial, and constant ones.
pub fn other_fcs(address: u8, application: &[u8]) -> Vec<Vec<u8>> {
    let right = body::fcs_of(address, application);
    let whole = [&[address], application].concat();
    let stuffed = [&[address], &crate::stuffing::stuff(application)[..]].concat();
    [
        [right[1], right[0]],
        [!right[0], !right[1]],
        crc(crc::FCS, application).to_be_bytes(),
        crc(crc::FCS, &stuffed).to_be_bytes(),
        crc(crc::SAFETY, &whole).to_be_bytes(),
        [0x00, 0x00],
        [0xFF, 0xFF],
    ]
    .map(|fcs| body::enclose_with(address, application, fcs))
    .to_vec()
}

/// Damage of any sort, done to a body of at least two bytes.
pub fn any(random: &mut Random, body: &[u8]) -> Vec<u8> {
    let place = 1 + random.below(body.len() - 1);
    match random.below(10) {
        0 => replaced(body, place, 0x7E),
        1 => inserted(body, place, &[0x7E]),
        2 => inserted(body, place, &[0x7D, random.pick(&WRONG_CODES)]),
        3 => replaced(body, place, 0x7D),
        4 => longer(body, 0x7D),
        5 => longer(body, sample::byte(random)),
        6 => body[..body.len() - 1].to_vec(),
        7 => body[..random.below(body.len())].to_vec(),
        8 => replaced(body, place, sample::byte(random)),
        _ => replaced(body, place, body[place] ^ 1 << random.below(8)),
    }
}
