//! Bodies with frames whose fault is a length, a check or the line, alone and two at once.

use super::damage;
use super::draft::Draft;
use super::random::Random;
use super::sample;
use crate::body;
use crate::cases::KINDS;
use crate::crc::{crc, FCS, SAFETY};
use crate::frame::typ;

pub fn fixed(random: &mut Random) -> Vec<Vec<u8>> {
    let mut bodies = Vec::new();
    for kind in 0..KINDS {
        bodies.extend(wrong_lengths(random, kind));
        bodies.extend(wrong_safety_crc(random, kind));
        bodies.extend(two_faults(random, kind));
        bodies.extend(line_faults(random, kind));
    }
    bodies.extend(too_short());
    bodies
}

/// One byte short and one long, within the content (safety CRC right) and at the end (wrong).
fn wrong_lengths(random: &mut Random, kind: u8) -> Vec<Vec<u8>> {
    let mut bodies = Vec::new();
    for datl in [0, 5] {
        let draft = Draft::new(random, kind, datl);
        let mut short = draft.clone();
        short.content.pop();
        let mut long = draft.clone();
        long.content.push(sample::byte(random));
        bodies.extend([short.body(), long.body()]);
        let mut application = draft.application();
        application.push(sample::byte(random));
        bodies.push(body::enclose(draft.address, &application));
        application.truncate(application.len() - 2);
        bodies.push(body::enclose(draft.address, &application));
    }
    bodies
}

/// Every bit of the safety CRC turned, bits of the content turned with the CRC left as it was,
/// and check bytes of other rules. None for kinds without a safety CRC.
fn wrong_safety_crc(random: &mut Random, kind: u8) -> Vec<Vec<u8>> {
    let draft = Draft::new(random, kind, 3);
    if !draft.is_safe() {
        return Vec::new();
    }
    let application = draft.application();
    let enclose = |application: &[u8]| body::enclose(draft.address, application);
    let turned = |place: usize, bit: usize| {
        damage::replaced(&application, place, application[place] ^ 1 << bit)
    };
    let length = application.len();
    let mut bodies = Vec::new();
    for bit in 0..8 {
        bodies.push(enclose(&turned(length - 1, bit)));
        bodies.push(enclose(&turned(length - 2, bit)));
        bodies.push(enclose(&turned(random.below(length - 2), bit)));
    }
    let whole = [&[draft.address], &draft.content[..]].concat();
    let right = [application[length - 2], application[length - 1]];
    for wrong in [
        [right[1], right[0]],
        [!right[0], !right[1]],
        crc(SAFETY, &whole).to_be_bytes(),
        crc(FCS, &draft.content).to_be_bytes(),
    ] {
        bodies.push(enclose(&[&draft.content[..], &wrong].concat()));
    }
    bodies
}

/// Two faults at once show which is asked first.
fn two_faults(random: &mut Random, kind: u8) -> Vec<Vec<u8>> {
    const NO_FCS: [u8; 2] = [0x12, 0x34];
    let draft = Draft::new(random, kind, 4);
    let address = draft.address;
    let reserved = sample::reserved_address(random);
    let right = draft.application();
    let last = right.len() - 1;
    let broken = damage::replaced(&right, last, right[last] ^ 0x01);
    let unknown = damage::replaced(&broken, 0, 0xBC);
    let longer = damage::longer(&broken, 0x55);
    vec![
        // 4 and 5 before 9.
        body::enclose_with(address, &broken, NO_FCS),
        body::enclose(reserved, &broken),
        // 4 and 5 before 7, 7 before 9.
        body::enclose_with(address, &unknown, NO_FCS),
        body::enclose(reserved, &unknown),
        body::enclose(address, &unknown),
        // 5 before 8, 8 before 9, by the length.
        body::enclose(reserved, &longer),
        body::enclose(address, &longer),
        // 8 before 9, by the address of a sync.
        body::enclose(0x90, &broken),
    ]
}

/// Numbers 1 to 4 with frames inside.
fn line_faults(random: &mut Random, kind: u8) -> Vec<Vec<u8>> {
    let draft = Draft::new(random, kind, 5);
    let right = draft.application();
    let body = draft.body();
    let place = 1 + random.below(body.len() - 1);
    let code = random.pick(&damage::WRONG_CODES);
    let mut bodies = vec![
        body[..random.below(6)].to_vec(),
        body[..6].to_vec(),
        damage::replaced(&body, place, 0x7E),
        damage::longer(&body, 0x7D),
        damage::inserted(&body, place, &[0x7D, code]),
    ];
    let wrong_fcs = damage::fcs_bits(draft.address, &right);
    bodies.extend(wrong_fcs.into_iter().step_by(5));
    // A frame with padding after it: unstuffed 273 and more, then received 544 and more.
    for length in [
        270 + random.below(4),
        274 + random.below(266),
        541 + random.below(4),
    ] {
        let mut padded = right.clone();
        padded.resize(length, 0x11);
        bodies.push(body::enclose(draft.address, &padded));
    }
    bodies
}

/// Seven bytes or more were received, but fewer are left without the stuffing.
fn too_short() -> Vec<Vec<u8>> {
    typ::BUILT
        .map(|typ| body::enclose(0xFF, &[typ, 0x7E, 0x7D]))
        .to_vec()
}
