//! Frames that a module has to leave alone, put between the lines of a script. Each is made from the frame that it
//! stands before, so that it would have had an effect: to another address, damaged, from another source or for another
//! module. After a frame come copies of it, and of those before. Now and then the line damages one, which is marked.

use crate::body;
use crate::frame::{self, Frame, Received};
use crate::fuzz::mutate::on_other_port;
use crate::generate::damage;
use crate::generate::draft::Draft;
use crate::generate::random::Random;
use crate::generate::sample;
use crate::hex;
use crate::module::NO_SID;
use crate::script::{parse, Line};

/// One frame in this many has such a frame before it, and one has a copy after it; then perhaps another.
const EVERY: usize = 4;

/// One such frame in this many is damaged on the line.
const ON_THE_LINE: usize = 8;

/// A copy of another frame comes at most so many lines later.
const LATE: usize = 8;

pub fn between(random: &mut Random, lines: &[Vec<u8>]) -> Vec<Vec<u8>> {
    let mut noisy = Vec::new();
    let mut sources = Vec::new();
    for (place, line) in lines.iter().enumerate() {
        let Some(received) = received(line) else {
            noisy.push(line.clone());
            continue;
        };
        sources.extend(source(&received.frame));
        while random.one_in(EVERY) {
            let body = spoilt(random, received.clone(), &sources);
            let port = random.pick(&[1, 2]);
            noisy.push(format!("{port} {}", hex::encode(&body)).into_bytes());
        }
        noisy.push(line.clone());
        while random.one_in(EVERY) {
            let back = match random.one_in(EVERY) {
                true => random.below(LATE).min(place),
                false => 0,
            };
            noisy.push(on_other_port(&lines[place - back]));
        }
    }
    noisy
}

fn received(line: &[u8]) -> Option<Received> {
    match parse(line)? {
        Line::Frame { body, .. } => frame::read(&body).ok(),
        _ => None,
    }
}

fn source(frame: &Frame) -> Option<u32> {
    match *frame {
        Frame::Sync { src, .. } => Some(src),
        Frame::SafeRead { head, .. } | Frame::SafeWrite { head, .. } => Some(head.src),
        Frame::SidAssignmentSil2(assignment) => Some(assignment.src),
        _ => None,
    }
}

/// Numbers 6, 9, 10 and 11; and one of 1 to 4.
fn spoilt(random: &mut Random, mut received: Received, sources: &[u32]) -> Vec<u8> {
    if random.one_in(ON_THE_LINE) {
        return lost(random, &draft(&received));
    }
    match random.below(4) {
        0 => received.address = sample::free_address(random),
        1 if draft(&received).is_safe() => return damaged(random, &draft(&received)),
        2 => from_another(random, &mut received.frame, sources),
        _ => for_another(random, &mut received.frame),
    }
    draft(&received).body()
}

fn draft(received: &Received) -> Draft {
    Draft {
        address: received.address,
        content: frame::content(&received.frame, &received.data),
    }
}

/// A bit of the safety CRC turned, the FCS right.
fn damaged(random: &mut Random, draft: &Draft) -> Vec<u8> {
    let mut application = draft.application();
    let place = application.len() - 1 - random.below(2);
    application[place] ^= 1 << random.below(8);
    body::enclose(draft.address, &application)
}

/// Numbers 1 to 4: cut, a flag inside, fewer bytes than received, a bit of the FCS turned.
fn lost(random: &mut Random, draft: &Draft) -> Vec<u8> {
    let body = draft.body();
    match random.below(4) {
        0 => body[..random.below(7)].to_vec(),
        1 => damage::inserted(&body, 1 + random.below(body.len()), &[0x7E]),
        2 => body::enclose(draft.address, &sample::bytes_with_stuffed(random, 3, 3)),
        _ => {
            let turned = damage::fcs_bits(draft.address, &draft.application());
            turned[random.below(turned.len())].clone()
        }
    }
}

/// A sync of a stranger, a request of any that spoke before, a SID assignment of none.
fn from_another(random: &mut Random, frame: &mut Frame, sources: &[u32]) {
    let bit = 1 << random.below(24);
    match frame {
        Frame::Sync { src, .. } => *src ^= bit,
        Frame::SafeRead { head, .. } | Frame::SafeWrite { head, .. } => {
            let known = random.pick(sources);
            head.src = random.pick(&[head.src ^ bit, NO_SID, known, known]);
        }
        Frame::SidAssignmentSil2(assignment) => assignment.src = NO_SID,
        _ => for_another(random, frame),
    }
}

/// One bit beside the SID, MAC or IID. A sync is for all.
fn for_another(random: &mut Random, frame: &mut Frame) {
    let (short, long) = (1 << random.below(24), 1 << random.below(64));
    match frame {
        Frame::Sync { src, .. } => *src ^= short,
        Frame::SafeRead { head, .. } | Frame::SafeWrite { head, .. } => head.dest ^= short,
        Frame::SidAssignmentSil2(assignment) => assignment.mac ^= long,
        Frame::TidAssignment { iid, .. } => *iid ^= long,
        _ => {}
    }
}
