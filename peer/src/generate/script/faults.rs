//! Frames with one fault, numbers 1 to 11, made from frames that would be accepted.

use super::super::draft::Draft;
use super::super::random::Random;
use super::super::{damage, sample, speech};
use super::manners::MODULES;
use super::names;
use super::stage::Stage;
use crate::body;
use crate::cases::KINDS;
use crate::frame::{typ, Head, SidAssignment, BROADCAST};
use crate::module::registers::{OUT_REP, RELEASE};
use crate::module::NO_SID;

/// Neither a read nor a write.
const WRONG_COMS: [u8; 10] = [0x00, 0x01, 0x02, 0x07, 0x70, 0x76, 0x78, 0x87, 0x89, 0xFF];

/// A frame that would be accepted now, or nearly so.
pub fn good(stage: &mut Stage) -> Draft {
    let cyc = stage.next_cycle();
    match stage.random.below(8) {
        0 => speech::sync(stage.active(), cyc),
        1 => {
            let (address, iid) = (stage.address(), stage.registers().iid());
            speech::tid(address, iid, 0x21)
        }
        2 => {
            let (address, assignment) = (stage.address(), stage.assignment(stage.active()));
            speech::sid(address, assignment)
        }
        3 => stage.due_write(OUT_REP, &[RELEASE]),
        4 => stage.due_write(0x80, &[0x7E, 0x7D, 0x31]),
        5 => stage.due_write(0x1E, &[0; 7]),
        6 => stage.due_read(16, 0x10),
        _ => stage.due_read(254, 0x02),
    }
}

/// Numbers 1 to 4, two bodies each, and any damage.
pub fn line(stage: &mut Stage) {
    let draft = good(stage);
    let body = draft.body();
    let random = &mut stage.random;
    let mut bodies = vec![damage::any(random, &body)];
    for _ in 0..2 {
        bodies.push(wrong_size(random));
        bodies.push(wrong_stuffing(random, &body));
        bodies.push(wrong_length(random, draft.address));
        bodies.push(wrong_fcs(random, &draft));
    }
    random.shuffle(&mut bodies);
    for body in bodies {
        stage.say(&body);
    }
}

fn wrong_size(random: &mut Random) -> Vec<u8> {
    let size = random.pick(&[0, 1, 5, 6, 6, 544, 544, 545, 599]);
    sample::bytes(random, size)
}

fn wrong_stuffing(random: &mut Random, body: &[u8]) -> Vec<u8> {
    let place = 1 + random.below(body.len() - 1);
    let code = random.pick(&damage::WRONG_CODES);
    match random.below(4) {
        0 => damage::inserted(body, place, &[0x7E]),
        1 => damage::longer(body, 0x7E),
        2 => damage::longer(body, 0x7D),
        _ => damage::inserted(body, place, &[0x7D, code]),
    }
}

/// At least seven bytes received and fewer meant, or more than 272 meant.
fn wrong_length(random: &mut Random, address: u8) -> Vec<u8> {
    let length = random.pick(&[2, 3, 3, 270, 270, 271, 300, 500]);
    let stuffed = random.pick(&[2, 9]).min(length);
    body::enclose(
        address,
        &sample::bytes_with_stuffed(random, length, stuffed),
    )
}

fn wrong_fcs(random: &mut Random, draft: &Draft) -> Vec<u8> {
    let application = draft.application();
    let turned = damage::fcs_bits(draft.address, &application);
    let other = damage::other_fcs(draft.address, &application);
    let bodies = [&turned[..], &other[..3]].concat();
    bodies[random.below(bodies.len())].clone()
}

/// Numbers 5 and 6.
pub fn addresses(stage: &mut Stage) {
    for _ in 0..3 {
        let reserved = sample::reserved_address(&mut stage.random);
        let draft = good(stage);
        stage.send(&Draft {
            address: reserved,
            ..draft
        });
        let foreign = foreign_address(stage);
        let draft = good(stage);
        stage.send(&Draft {
            address: foreign,
            ..draft
        });
    }
}

fn foreign_address(stage: &mut Stage) -> u8 {
    let own = stage.own_tid();
    loop {
        let any = sample::free_address(&mut stage.random);
        let address = stage
            .random
            .pick(&[any, any, own ^ 1, own ^ 0x80, 0xF0, 0x8F]);
        if !body::reserved(address) && ![own, MODULES, BROADCAST].contains(&address) {
            return address;
        }
    }
}

/// Number 7: any other TYP on a good frame, and whole frames that are not for modules.
pub fn typs(stage: &mut Stage) {
    for _ in 0..2 {
        let typ = stage.random.byte();
        let draft = good(stage).with(0, typ);
        stage.send(&draft);
        let kind = 3 + stage.random.below(KINDS as usize - 3) as u8;
        let datl = sample::datl(&mut stage.random);
        let address = stage.address();
        let draft = Draft::new(&mut stage.random, kind, datl);
        stage.send(&Draft { address, ..draft });
        let typ = stage.random.pick(&[0xBC, 0xA6, 0x6A, typ::PLAIN_REQUEST]);
        let draft = good(stage).with(0, typ);
        stage.send(&draft);
    }
}

/// Number 8: wrong lengths of any frame, and of the data of a write or a read.
pub fn lengths(stage: &mut Stage) {
    let mut shorter = good(stage);
    let cut = 1 + stage.random.below(shorter.content.len() - 2);
    shorter.content.truncate(shorter.content.len() - cut);
    let mut longer = good(stage);
    let more = 1 + stage.random.below(4);
    longer.content.extend(vec![0x55; more]);
    let datl = stage.random.pick(&[0, 2, 4, 255]);
    let other_datl = stage.due_write(0x80, &[1, 2, 3]).with(10, datl);
    let read_with_data = stage.due_write(0x80, &[1, 2]).with(9, 0x88);
    for draft in [shorter, longer, other_datl, read_with_data] {
        if stage.random.one_in(2) {
            stage.send(&draft);
        }
    }
}

/// Number 8: wrong COMs, syncs to another address, assignments of the SIL4 form.
pub fn forms(stage: &mut Stage) {
    let com = stage.next_of("COMs", &WRONG_COMS);
    let other_com = stage.due_read(1, 0x10).with(9, com);
    let cyc = stage.next_cycle();
    let sync = Draft {
        address: stage.random.pick(&[MODULES, stage.own_tid()]),
        ..speech::sync(stage.active(), cyc)
    };
    let sil4 = names::sil4(stage);
    for draft in [other_com, sync, sil4.clone()] {
        stage.send(&draft);
    }
    // A wrong safety CRC does not matter then.
    let mut application = sil4.application();
    application[26] ^= 1;
    stage.say(&body::enclose(sil4.address, &application));
}

/// Number 9: bits of the safety CRC or of the content turned, the FCS right again.
pub fn crcs(stage: &mut Stage) {
    for _ in 0..3 {
        let draft = good(stage);
        let mut application = draft.application();
        let place = match stage.random.below(3) {
            0 => 1 + stage.random.below(application.len() - 1),
            _ => application.len() - 1 - stage.random.below(2),
        };
        application[place] ^= 1 << stage.random.below(8);
        stage.say(&body::enclose(draft.address, &application));
    }
}

/// Number 10: FFFFFFh, strangers, and for requests all but the one of the last sync.
pub fn sources(stage: &mut Stage) {
    stage.some_mode(4);
    let stranger = names::stranger(stage);
    let cyc = stage.next_cycle();
    let src = stage.random.pick(&[NO_SID, stranger]);
    stage.send(&speech::sync(src, cyc));
    let passive = stage.passive().unwrap_or(stranger);
    for src in [
        passive,
        stage.random.pick(&[NO_SID, stranger, stage.own_sid()]),
    ] {
        let head = Head {
            src,
            ..stage.head()
        };
        let address = stage.address();
        stage.send(&speech::write(address, head, 0x80, &[0xAB]));
    }
}

/// Number 11: one bit beside the own SID, MAC or IID, or its bytes the other way round.
pub fn identities(stage: &mut Stage) {
    stage.some_mode(4);
    other_dest(stage);
    let (address, bit) = (stage.address(), stage.random.below(24));
    let (mac, iid) = (stage.registers().mac(), stage.registers().iid());
    let other_iid = stage.random.pick(&[iid ^ 1 << bit, iid.swap_bytes(), mac]);
    stage.send(&speech::tid(address, other_iid, 0x33));
    let other_mac = stage
        .random
        .pick(&[mac ^ 1 << bit, mac.swap_bytes(), iid, 0]);
    let assignment = SidAssignment {
        mac: other_mac,
        ..stage.assignment(stage.active())
    };
    stage.send(&speech::sid(address, assignment));
}

fn other_dest(stage: &mut Stage) {
    let (own, bit) = (stage.own_sid(), stage.random.below(24));
    let turned = own.swap_bytes() >> 8;
    let dest = stage.random.pick(&[own ^ 1 << bit, turned, NO_SID]);
    let address = stage.address();
    let head = Head {
        dest,
        ..stage.head()
    };
    stage.send(&speech::read(address, head, 1, 0x10));
}

/// One byte of a good frame changed, all checks right: any number may come.
pub fn changed(stage: &mut Stage) {
    stage.some_mode(6);
    for _ in 0..4 {
        let draft = good(stage);
        let place = stage.random.below(draft.content.len());
        let near = draft.content[place] ^ 1 << stage.random.below(8);
        let any = sample::byte(&mut stage.random);
        let byte = stage.random.pick(&[near, any]);
        stage.send(&draft.with(place, byte));
    }
}
