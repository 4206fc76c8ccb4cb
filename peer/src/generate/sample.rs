//! Samples: bytes, addresses and good frames, with the values that matter made frequent.

use super::random::Random;
use crate::body;
use crate::frame::{com, Frame, Head, SidAssignment, Span, BROADCAST, SID_MAX};

/// Each end of a run of reserved addresses, and its neighbours.
const BORDER_ADDRESSES: [u8; 22] = [
    0x00, 0x01, 0x7C, 0x7D, 0x7E, 0x7F, 0x8E, 0x8F, 0x90, 0x91, 0x92, 0xEE, 0xEF, 0xF0, 0xF1, 0xF7,
    0xF8, 0xF9, 0xFA, 0xFD, 0xFE, 0xFF,
];

const STUFFED: [u8; 2] = [0x7D, 0x7E];
const TOUCHY: [u8; 8] = [0x7D, 0x7E, 0x5D, 0x5E, 0x7D, 0x7E, 0x00, 0xFF];

pub fn byte(random: &mut Random) -> u8 {
    if random.one_in(3) {
        random.pick(&TOUCHY)
    } else {
        random.byte()
    }
}

/// A string of one of several tempers: any bytes, many touchy ones, only stuffed ones, one byte.
pub fn bytes(random: &mut Random, length: usize) -> Vec<u8> {
    let same = byte(random);
    let temper = random.below(8);
    let next = |_| match temper {
        0..=3 => random.byte(),
        4 | 5 => byte(random),
        6 => random.pick(&STUFFED),
        _ => same,
    };
    (0..length).map(next).collect()
}

/// Exactly `stuffed` of the bytes, at any places, need stuffing.
pub fn bytes_with_stuffed(random: &mut Random, length: usize, stuffed: usize) -> Vec<u8> {
    let next = |place| match place < stuffed {
        true => random.pick(&STUFFED),
        false => random.below(0x7D) as u8,
    };
    let mut bytes: Vec<u8> = (0..length).map(next).collect();
    random.shuffle(&mut bytes);
    bytes
}

/// An address and application data that, with the right FCS, make a body of `received`
/// bytes on the line. If both bytes of the FCS have to be stuffed, some ten thousand
/// tries are made; both polynomial and stuffed bytes have an even count of ones, so an
/// address must have one too, and is drawn anew each time.
pub fn of_length(random: &mut Random, application: usize, received: usize) -> (u8, Vec<u8>) {
    let stuffed = received - application - 3;
    loop {
        let address = free_address(random);
        let in_fcs = stuffed.saturating_sub(application).max(random.below(3));
        let in_data = stuffed.saturating_sub(in_fcs).min(application);
        let data = bytes_with_stuffed(random, application, in_data);
        if body::enclose(address, &data).len() == received {
            return (address, data);
        }
    }
}

/// Mostly short, now and then up to `limit`.
pub fn length(random: &mut Random, limit: usize) -> usize {
    let bound = match random.below(10) {
        0..=6 => 24,
        7 | 8 => 80,
        _ => limit,
    };
    random.below(bound.min(limit) + 1)
}

pub fn free_address(random: &mut Random) -> u8 {
    address(random, false)
}

pub fn reserved_address(random: &mut Random) -> u8 {
    address(random, true)
}

fn address(random: &mut Random, reserved: bool) -> u8 {
    loop {
        let address = match random.one_in(3) {
            true => random.pick(&BORDER_ADDRESSES),
            false => random.byte(),
        };
        if body::reserved(address) == reserved {
            return address;
        }
    }
}

/// All border addresses for the kinds that stand for the others (syncs, which have an address
/// of their own, and safe reads); a few of both sorts for the rest.
pub fn addresses_for(random: &mut Random, kind: u8) -> Vec<u8> {
    if kind <= 0x01 {
        return BORDER_ADDRESSES.to_vec();
    }
    (0..3)
        .flat_map(|_| [free_address(random), reserved_address(random)])
        .collect()
}

fn sid(random: &mut Random) -> u32 {
    match random.below(8) {
        0 => SID_MAX,
        1 => random.pick(&[0, 1, 0x7D_7E7D, 0x7E_7D5E, 0x80_0000, SID_MAX - 1]),
        _ => random.next() as u32 & SID_MAX,
    }
}

fn wide(random: &mut Random) -> u64 {
    match random.below(6) {
        0 => random.pick(&[0, 1, 2, u64::MAX, 0x7D7E_5D5E_7E7D_5E5D]),
        _ => random.next(),
    }
}

fn head(random: &mut Random) -> Head {
    Head {
        dest: sid(random),
        src: sid(random),
        cyc: byte(random),
        seq: byte(random),
    }
}

fn assignment(random: &mut Random) -> SidAssignment {
    SidAssignment {
        src: sid(random),
        sec: wide(random) as u32,
        mac: wide(random),
        sid: sid(random),
    }
}

pub struct Sample {
    pub address: u8,
    pub frame: Frame,
    pub data: Vec<u8>,
}

/// A frame of the kind with that DATL, if it has one, and as many data bytes, if it carries any.
/// It is a good one, but for a safe response with DATL 255.
pub fn frame(random: &mut Random, kind: u8, datl: u8) -> Sample {
    let address = match kind {
        0x00 => BROADCAST,
        _ => free_address(random),
    };
    let data = match kind {
        0x02 | 0x04 | 0x05 | 0x06 | 0x07 => bytes(random, datl as usize),
        _ => Vec::new(),
    };
    Sample {
        address,
        frame: fields(random, kind, datl),
        data,
    }
}

fn fields(random: &mut Random, kind: u8, datl: u8) -> Frame {
    let add = byte(random);
    let span = Span { datl, add };
    match kind {
        0x00 => Frame::Sync {
            src: sid(random),
            cyc: byte(random),
        },
        0x01 => Frame::SafeRead {
            head: head(random),
            span,
        },
        0x02 => Frame::SafeWrite {
            head: head(random),
            span,
        },
        0x03 => Frame::PlainRead {
            src: byte(random),
            span,
        },
        0x04 => Frame::PlainWrite {
            src: byte(random),
            span,
        },
        0x05 => Frame::SafeResponse {
            head: head(random),
            com: response_com(random, &[com::SAFE_TO_SYNC, com::SAFE_TO_READ], datl),
            span,
            stat: byte(random),
        },
        0x06 => Frame::PlainSyncAnswer {
            src: byte(random),
            span,
            stat: byte(random),
        },
        0x07 => Frame::PlainResponse {
            src: byte(random),
            com: response_com(random, &[com::PLAIN_TO_READ], datl),
            span,
        },
        0x08 => Frame::TidAssignment {
            src: byte(random),
            iid: wide(random),
            tid: byte(random),
        },
        0x09 => Frame::SidAssignmentSil2(assignment(random)),
        0x0A => Frame::SidAssignmentSil4 {
            first: assignment(random),
            sid2: sid(random),
            src2: sid(random),
        },
        0x0B => Frame::Acknowledgement {
            src: sid(random),
            dst: sid(random),
            sec: wide(random) as u32,
            mac: wide(random),
        },
        _ => Frame::Invariants {
            head: head(random),
            configuration: wide(random) as u16,
            logic: wide(random) as u16,
        },
    }
}

fn response_com(random: &mut Random, with_data: &[u8], datl: u8) -> u8 {
    match datl == 0 && random.one_in(2) {
        true => random.pick(&[com::ERROR_TO_SYNC, com::ERROR_TO_READ]),
        false => random.pick(with_data),
    }
}

/// A DATL that is small, at an end of its range, or anything.
pub fn datl(random: &mut Random) -> u8 {
    match random.below(10) {
        0 => random.pick(&[0, 1, 253, 254]),
        1 => random.below(255) as u8,
        _ => random.below(20) as u8,
    }
}
