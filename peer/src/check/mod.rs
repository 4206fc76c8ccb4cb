//! Self checks: stored vectors, published and proved values, round trips of every kind, the
//! cases on the bench, what the host may do wrong, the limit of requests, the numbers skipped, the tick
//! call, the window of syncs, the ground of fallback, the traps, the script, the frame, the load, the journey and the
//! which program, what the terminals show, what striking refused frames leaves and what is read
//! of bodies with flipped bits.

mod bench;
mod flips;
mod flips_form;
mod ground;
mod history;
mod host;
mod keeping;
mod limit;
mod lists;
mod load;
mod load_edges;
mod load_wrong;
mod loading;
mod million;
mod module;
mod printed;
mod programs;
mod refusals;
mod rules;
mod running;
mod script;
mod skip;
mod spelling;
mod strike;
mod struck;
mod terminals;
mod tick;
mod traps;
mod which;
mod which_faults;
mod which_incidents;
mod which_laws;
mod which_length;
mod which_wrong;
mod window;
mod worst;
mod worst_faults;
mod worst_journeys;
mod worst_wrong;
mod wrong;

use crate::body;
use crate::cases::KINDS;
use crate::crc::{crc, FCS, SAFETY};
use crate::frame;
use crate::generate::random::Random;
use crate::generate::sample;
use crate::refusal::Refusal;
use crate::stuffing;
use crate::vectors;

#[derive(Default)]
pub struct Tally {
    pub passed: usize,
    pub failed: usize,
}

impl Tally {
    fn check(&mut self, holds: bool, what: &str) {
        if holds {
            self.passed += 1;
        } else {
            self.failed += 1;
            eprintln!("failed: {what}");
        }
    }
}

pub fn run() -> Tally {
    let mut tally = Tally::default();
    bodies(&mut tally);
    bench::run(&mut tally);
    traps::run(&mut tally);
    rules::run(&mut tally);
    host::run(&mut tally);
    limit::run(&mut tally);
    skip::run(&mut tally);
    tick::run(&mut tally);
    window::run(&mut tally);
    ground::run(&mut tally);
    history::run(&mut tally);
    script::run(&mut tally);
    spelling::run(&mut tally);
    lists::run(&mut tally);
    load::run(&mut tally);
    load_edges::run(&mut tally);
    load_wrong::run(&mut tally);
    million::run(&mut tally);
    worst::run(&mut tally);
    worst_journeys::run(&mut tally);
    worst_wrong::run(&mut tally);
    which_program(&mut tally);
    terminals::run(&mut tally);
    printed::run(&mut tally);
    struck::run(&mut tally);
    strike::run(&mut tally);
    wrong::run(&mut tally);
    let random = &mut Random::new(7);
    for kind in 0..KINDS {
        for datl in [0, 1, 2, 7, 30, 253, 254] {
            for _ in 0..4 {
                round_trip(&mut tally, random, kind, datl);
            }
        }
    }
    tally
}

fn bodies(tally: &mut Tally) {
    crc_vectors(tally);
    published(tally);
    stuffing_cases(tally);
    flips::run(tally);
    flips_form::run(tally);
}

fn which_program(tally: &mut Tally) {
    which::run(tally);
    which_laws::run(tally);
    which_incidents::run(tally);
    which_wrong::run(tally);
}

fn crc_vectors(tally: &mut Tally) {
    let vectors = vectors::stored();
    tally.check(vectors.len() >= 100, "the vectors file has its vectors");
    for vector in vectors {
        let polynomial = match vector.name {
            "FCS" => FCS,
            _ => SAFETY,
        };
        let what = format!("{} over {} bytes", vector.name, vector.bytes.len());
        tally.check(crc(polynomial, &vector.bytes) == vector.crc, &what);
    }
}

fn published(tally: &mut Tally) {
    tally.check(
        crc(FCS, b"123456789") == 0x29B1,
        "P7, published check value",
    );
    let powers = [15, 12, 7, 6, 4, 3, 0];
    let sum = powers.iter().fold(0, |sum, power| sum | 1 << power);
    tally.check(SAFETY == sum, "safety polynomial by its powers");
}

fn stuffing_cases(tally: &mut Tally) {
    let plain = [0x7E, 0x31, 0x7D];
    let line = [0x7D, 0x5E, 0x31, 0x7D, 0x5D];
    tally.check(stuffing::stuff(&plain) == line, "P4");
    tally.check(
        stuffing::unstuff(&line).as_deref() == Some(&plain),
        "P4 back",
    );
    for length in [7, 8, 9, 100, 542, 543] {
        let body = vec![0x11; length];
        for place in [1, length / 2, length - 2] {
            let mut broken = body.clone();
            broken[place..place + 2].copy_from_slice(&[0x7D, 0x31]);
            let what = format!("P5 at {place} of {length}");
            tally.check(body::read(&broken) == Err(Refusal::Stuffing), &what);
        }
        let mut flag = body.clone();
        flag[length / 2] = 0x7E;
        let what = format!("a flag inside {length}");
        tally.check(body::read(&flag) == Err(Refusal::Stuffing), &what);
        let mut last = body;
        last[length - 1] = 0x7D;
        let what = format!("P6 in {length}");
        tally.check(body::read(&last) == Err(Refusal::Stuffing), &what);
    }
}

/// Written, then read between the flags, it is the same frame. Nothing changes after the closing
/// flag, and nothing at all in a buffer that is one byte too small.
fn round_trip(tally: &mut Tally, random: &mut Random, kind: u8, datl: u8) {
    const FILL: u8 = 0xA5;
    let sample = sample::frame(random, kind, datl);
    let what = format!("round trip of kind {kind:02X}, DATL {datl}");
    let mut buffer = [FILL; 600];
    let Ok(length) = frame::write(sample.address, &sample.frame, &sample.data, &mut buffer) else {
        return tally.check(false, &what);
    };
    let read = frame::read(&buffer[1..length - 1]);
    let same = read.is_ok_and(|read| {
        (read.address, read.frame, read.data) == (sample.address, sample.frame, sample.data.clone())
    });
    let flags = buffer[0] == stuffing::FLAG && buffer[length - 1] == stuffing::FLAG;
    let kept = buffer[length..].iter().all(|&byte| byte == FILL);
    tally.check(same && flags && kept, &what);

    let mut tight = vec![FILL; length - 1];
    let outcome = frame::write(sample.address, &sample.frame, &sample.data, &mut tight);
    let untouched = tight.iter().all(|&byte| byte == FILL);
    tally.check(outcome == Err(Refusal::Room) && untouched, &what);
}
