//! Frames to write: every kind, its fields at and above their limits, rooms at and below need.

use super::line;
use super::random::Random;
use super::sample::{self, Sample};
use crate::cases::{fields_of, KINDS};
use crate::frame::Frame;
use crate::hex;

pub fn fixed(random: &mut Random) -> Vec<String> {
    let mut lines = Vec::new();
    for kind in 0..KINDS {
        lines.extend(rooms(random, kind));
        lines.extend(addresses(random, kind));
        lines.extend(sids(random, kind));
        lines.extend(wrong_data(random, kind));
        lines.extend(two_faults(random, kind));
    }
    lines.extend(data_lengths(random));
    lines.extend(coms(random));
    lines
}

fn exactly(sample: &Sample) -> String {
    line::write(line::length_written(sample), sample)
}

fn rooms(random: &mut Random, kind: u8) -> Vec<String> {
    let mut lines = Vec::new();
    for datl in [0, 3] {
        let sample = sample::frame(random, kind, datl);
        let exact = line::length_written(&sample);
        for room in [exact - 1, exact, exact + 1, exact + 9, 0, 1] {
            lines.push(line::write(room, &sample));
        }
    }
    lines.push(line::write(600, &sample::frame(random, kind, 1)));
    lines
}

fn addresses(random: &mut Random, kind: u8) -> Vec<String> {
    let mut lines = Vec::new();
    for address in sample::addresses_for(random, kind) {
        let sample = sample::frame(random, kind, 2);
        lines.push(exactly(&Sample { address, ..sample }));
    }
    lines
}

/// Where the 24-bit fields of a kind begin among the fields of its case line.
fn sid_places(frame: &Frame) -> &'static [usize] {
    match frame {
        Frame::Sync { .. } => &[0],
        Frame::SafeRead { .. }
        | Frame::SafeWrite { .. }
        | Frame::SafeResponse { .. }
        | Frame::Invariants { .. }
        | Frame::Acknowledgement { .. } => &[0, 4],
        Frame::SidAssignmentSil2(_) => &[0, 16],
        Frame::SidAssignmentSil4 { .. } => &[0, 16, 20, 24],
        Frame::PlainRead { .. }
        | Frame::PlainWrite { .. }
        | Frame::PlainSyncAnswer { .. }
        | Frame::PlainResponse { .. }
        | Frame::TidAssignment { .. } => &[],
    }
}

/// Each 24-bit field at its limit and above; a field of 32 bits in between stays free.
fn sids(random: &mut Random, kind: u8) -> Vec<String> {
    let mut lines = Vec::new();
    let sample = sample::frame(random, kind, 2);
    let (_, fields) = fields_of(&sample.frame);
    for &place in sid_places(&sample.frame) {
        for value in [
            0xFF_FFFF,
            0x100_0000,
            0xFFFF_FFFF,
            0x7E00_0000,
            0x0100_0001,
            0,
        ] {
            let mut fields = fields.clone();
            fields[place..place + 4].copy_from_slice(&u32::to_be_bytes(value));
            let start = line::start(80, &[sample.address, kind]);
            lines.push(start + &hex::encode(&fields) + &hex::encode(&sample.data));
        }
    }
    lines
}

/// One data byte fewer and more than DATL says; data where there should be none.
fn wrong_data(random: &mut Random, kind: u8) -> Vec<String> {
    let mut lines = Vec::new();
    for (datl, length) in [
        (0, 1),
        (1, 0),
        (1, 1),
        (1, 2),
        (4, 3),
        (4, 4),
        (4, 5),
        (9, 300),
    ] {
        let mut sample = sample::frame(random, kind, datl);
        sample.data = sample::bytes(random, length);
        lines.push(line::write(100, &sample));
    }
    lines
}

/// Two faults at once show which is asked first: 5, then 8, then 20.
fn two_faults(random: &mut Random, kind: u8) -> Vec<String> {
    let mut lines = Vec::new();
    for room in [0, 3, 40] {
        let good = sample::frame(random, kind, 2);
        let address = sample::reserved_address(random);
        lines.push(line::write(room, &Sample { address, ..good }));
        let mut longer = sample::frame(random, kind, 2);
        longer.data.push(0x31);
        lines.push(line::write(room, &longer));
        let address = sample::reserved_address(random);
        lines.push(line::write(room, &Sample { address, ..longer }));
    }
    lines
}

/// DATL at its limits, data as long; and the longest frames against the room they need.
fn data_lengths(random: &mut Random) -> Vec<String> {
    let mut lines = Vec::new();
    for kind in 0x01..=0x07 {
        for datl in [0, 1, 253, 254, 255] {
            let sample = sample::frame(random, kind, datl);
            let exact = line::length_written(&sample);
            lines.push(line::write(exact, &sample));
            lines.push(line::write(exact - 1, &sample));
        }
        for datl in [254, 255] {
            let mut sample = sample::frame(random, kind, datl);
            sample.data.fill(0x7E);
            lines.push(exactly(&sample));
            sample.data.pop();
            lines.push(exactly(&sample));
        }
    }
    lines
}

/// COMs in and out of tables 7 and 8, with and without data.
fn coms(random: &mut Random) -> Vec<String> {
    let mut lines = Vec::new();
    for value in [
        0x00, 0x01, 0x02, 0x03, 0x06, 0x07, 0x08, 0x54, 0x55, 0x56, 0x6F, 0x70, 0x71, 0x77, 0x88,
        0xA9, 0xAA, 0xAB, 0xFF,
    ] {
        for kind in [0x05, 0x07] {
            for datl in [0, 1, 254, 255] {
                // Long ones for the COMs that carry data and for the errors only.
                if datl > 1 && ![0x02, 0x07, 0x55, 0x70, 0xAA].contains(&value) {
                    continue;
                }
                let mut sample = sample::frame(random, kind, datl);
                set_com(&mut sample.frame, value);
                lines.push(exactly(&sample));
                if datl == 1 {
                    sample.data.clear();
                    lines.push(exactly(&sample));
                }
            }
        }
    }
    lines
}

fn set_com(frame: &mut Frame, value: u8) {
    if let Frame::SafeResponse { com, .. } | Frame::PlainResponse { com, .. } = frame {
        *com = value;
    }
}

pub fn any(random: &mut Random) -> String {
    let kind = random.below(KINDS as usize) as u8;
    let datl = sample::datl(random);
    let mut sample = sample::frame(random, kind, datl);
    match random.below(12) {
        0 => sample.address = sample::reserved_address(random),
        1 => sample.address = sample::free_address(random),
        2 => sample.data.push(random.byte()),
        3 => drop(sample.data.pop()),
        4 => set_com(&mut sample.frame, sample::byte(random)),
        _ => {}
    }
    let exact = line::length_written(&sample);
    line::write(line::some_room(random, exact), &sample)
}
