//! Bodies with frames to read: every kind, COM, TYP, DATL and length, the FCS right.

use super::draft::Draft;
use super::random::Random;
use super::{damage, frame_faults, line, sample};
use crate::body;
use crate::cases::KINDS;
use crate::crc::{crc, SAFETY};
use crate::frame::{self, typ};

pub fn fixed(random: &mut Random) -> Vec<String> {
    let mut bodies = Vec::new();
    for kind in 0..KINDS {
        bodies.extend(good(random, kind));
        bodies.extend(addresses(random, kind));
    }
    bodies.extend(coms(random));
    bodies.extend(data_lengths(random));
    bodies.extend(typs(random));
    bodies.extend(sid_assignment_lengths(random));
    bodies.extend(field_limits(random));
    bodies.extend(frame_faults::fixed(random));
    bodies.iter().map(|body| line::read(body)).collect()
}

fn good(random: &mut Random, kind: u8) -> Vec<Vec<u8>> {
    let mut bodies = Vec::new();
    for datl in [0, 0, 0, 1, 2, 8, 253, 254, 255] {
        bodies.push(Draft::new(random, kind, datl).body());
    }
    bodies
}

fn addresses(random: &mut Random, kind: u8) -> Vec<Vec<u8>> {
    let mut bodies = Vec::new();
    for address in sample::addresses_for(random, kind) {
        let draft = Draft::new(random, kind, 2);
        bodies.push(Draft { address, ..draft }.body());
    }
    bodies
}

/// For each TYP with a COM: those of all tables, their neighbours, and others.
fn coms(random: &mut Random) -> Vec<Vec<u8>> {
    let values = [
        0x00, 0x01, 0x02, 0x03, 0x06, 0x07, 0x08, 0x54, 0x55, 0x56, 0x6F, 0x70, 0x71, 0x76, 0x77,
        0x78, 0x7D, 0x7E, 0x80, 0x87, 0x88, 0x89, 0xA9, 0xAA, 0xAB, 0xEE, 0xFF,
    ];
    let mut bodies = Vec::new();
    for kind in [0x01, 0x02, 0x03, 0x04, 0x05, 0x06, 0x07] {
        for value in values {
            let datl = random.pick(&[0, 0, 1, 3]);
            let draft = Draft::new(random, kind, datl);
            bodies.push(draft.with(draft.com_place(), value).body());
        }
    }
    bodies
}

/// DATL at its limits against as many, fewer and more data bytes, for every COM.
fn data_lengths(random: &mut Random) -> Vec<Vec<u8>> {
    let mut bodies = Vec::new();
    for (kind, com) in [
        (0x01, 0x88),
        (0x02, 0x77),
        (0x03, 0x02),
        (0x04, 0x01),
        (0x05, 0x07),
        (0x05, 0x70),
        (0x05, 0xAA),
        (0x05, 0x55),
        (0x06, 0x01),
        (0x07, 0x02),
        (0x07, 0xAA),
        (0x07, 0x55),
    ] {
        for (datl, told) in [
            (0, 1),
            (1, 0),
            (1, 1),
            (2, 1),
            (253, 254),
            (254, 253),
            (254, 254),
            (254, 255),
            (255, 254),
            (255, 255),
        ] {
            let draft = Draft::new(random, kind, datl);
            let place = draft.com_place();
            bodies.push(draft.with(place, com).with(place + 1, told).body());
        }
    }
    // A read that carries the data it asks for.
    for (kind, datl) in [(0x01, 1), (0x01, 4), (0x03, 1), (0x03, 4)] {
        let mut sample = sample::frame(random, kind, datl);
        sample.data = sample::bytes(random, datl as usize);
        bodies.push(Draft::of(&sample).body());
    }
    bodies
}

/// Every TYP, over contents of several lengths; each with the CRC at its end, safe or not.
fn typs(random: &mut Random) -> Vec<Vec<u8>> {
    let mut bodies = Vec::new();
    for typ in 0..=0xFF {
        let kind = random.below(KINDS as usize) as u8;
        let draft = Draft::new(random, kind, 1);
        let mut content = draft.content.clone();
        content[0] = typ;
        let check = crc(SAFETY, &content);
        content.extend(check.to_be_bytes());
        bodies.push(body::enclose(draft.address, &content));
    }
    // TYPs that document 000 knows and that are not built.
    for typ in [0xA6, 0x6A, 0xBC] {
        for length in [4, 5, 14, 21, 27] {
            let mut application = sample::bytes(random, length - 2);
            application[0] = typ;
            let check = crc(SAFETY, &application);
            application.extend(check.to_be_bytes());
            bodies.push(body::enclose(sample::free_address(random), &application));
        }
    }
    // The shortest application data there is, for every TYP that is built.
    for typ in typ::BUILT {
        let mut content = sample::bytes(random, if frame::safe(typ) == Some(true) { 2 } else { 4 });
        content[0] = typ;
        bodies.push(body::enclose(0xFF, &frame::seal(content)));
    }
    bodies
}

/// SID assignments of 4 to 33 bytes, all with a right safety CRC; the two right lengths also
/// with a wrong one.
fn sid_assignment_lengths(random: &mut Random) -> Vec<Vec<u8>> {
    let mut bodies = Vec::new();
    for length in 2..32 {
        let mut content = sample::bytes(random, length);
        content[0] = typ::SID_ASSIGNMENT;
        let mut application = frame::seal(content);
        bodies.push(body::enclose(0x90, &application));
        if [19, 25].contains(&length) {
            application[length] ^= 0x10;
            bodies.push(body::enclose(0x90, &application));
        }
    }
    // A SIL4 form cut to the length of a SIL2 form without a new CRC, and the other way.
    let long = Draft::new(random, 0x0A, 0).application();
    bodies.push(body::enclose(0x90, &long[..21]));
    let short = Draft::new(random, 0x09, 0).application();
    bodies.push(body::enclose(0x90, &[&short[..], &[0; 6]].concat()));
    bodies
}

/// Every field byte FFh, 00h, 7Dh and 7Eh after TYP, one frame for each kind and byte.
fn field_limits(random: &mut Random) -> Vec<Vec<u8>> {
    let mut bodies = Vec::new();
    for kind in [0x00, 0x08, 0x09, 0x0A, 0x0B, 0x0C] {
        let draft = Draft::new(random, kind, 0);
        for byte in [0xFF, 0x00, 0x7D, 0x7E] {
            let mut content = vec![byte; draft.content.len()];
            content[0] = draft.content[0];
            bodies.push(Draft { content, ..draft }.body());
        }
    }
    for kind in [0x01, 0x02, 0x05] {
        let draft = Draft::new(random, kind, 2);
        for byte in [0xFF, 0x00, 0x7D, 0x7E] {
            let mut content = draft.content.clone();
            content[1..9].fill(byte);
            bodies.push(Draft { content, ..draft }.body());
        }
    }
    bodies
}

pub fn any(random: &mut Random) -> String {
    let kind = random.below(KINDS as usize) as u8;
    let datl = sample::datl(random);
    let draft = Draft::new(random, kind, datl);
    line::read(&match random.below(16) {
        0 => wrong_crc(random, &draft),
        1 => draft.with(0, random.byte()).body(),
        2 => draft.with(0, random.pick(&typ::BUILT)).body(),
        3 => {
            let place = draft.com_place().min(draft.content.len() - 1);
            draft.with(place, sample::byte(random)).body()
        }
        4 => {
            let place = (draft.com_place() + 1).min(draft.content.len() - 1);
            draft.with(place, sample::datl(random)).body()
        }
        5 => {
            let mut cut = draft.clone();
            cut.content.truncate(2 + random.below(draft.content.len()));
            cut.body()
        }
        6 => {
            let mut longer = draft.clone();
            let more = 1 + random.below(8);
            longer.content.extend(sample::bytes(random, more));
            longer.body()
        }
        7 => body::enclose(sample::reserved_address(random), &draft.application()),
        8 => body::enclose(sample::free_address(random), &draft.application()),
        9 | 10 => damage::any(random, &draft.body()),
        _ => draft.body(),
    })
}

fn wrong_crc(random: &mut Random, draft: &Draft) -> Vec<u8> {
    let mut application = draft.application();
    let place = application.len() - 1 - random.below(2);
    application[place] ^= 1 << random.below(8);
    body::enclose(draft.address, &application)
}
