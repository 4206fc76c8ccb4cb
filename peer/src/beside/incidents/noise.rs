//! Noise: bytes of all kinds, or of few, alone and behind a good script, and good scripts with bytes changed, lost and
//! added.

use crate::generate;
use crate::generate::random::Random;
use crate::incident;

const SEED: u64 = 20;

/// So many of each kind.
const TIMES: usize = 8;

/// In bytes.
const LENGTH: usize = 3_000;

/// Few bytes, so that many lines are good ones.
const FEW: [&[u8]; 4] = [
    b"\n\n\n\n\n\nT I0123456789ABCDEFabcdef ",
    b"1 0\n",
    b"T 1\n\n",
    b"\n\r\0 ",
];

/// Put in anywhere.
const PUT_IN: [&[u8]; 6] = [b"\0", b"\r", b"\n", b" ", b"\xFF", b"0"];

/// Each with its name.
pub fn scripts() -> Vec<(String, Vec<u8>)> {
    let random = &mut Random::new(SEED);
    let good = incident::edge("sync-at-limit").expect("a named incident");
    let mut scripts = Vec::new();
    for time in 0..TIMES {
        let any: Vec<u8> = (0..LENGTH).map(|_| random.byte()).collect();
        let printable: Vec<u8> = (0..LENGTH).map(|_| 0x20 + random.byte() % 95).collect();
        let few = FEW.map(|few| (0..LENGTH / 4).map(|_| random.pick(few)).collect());
        for (kind, noise) in [any, printable].into_iter().chain(few).enumerate() {
            let behind = [&good[..], &noise].concat();
            scripts.push((format!("noise {kind}, {time}, behind a script"), behind));
            scripts.push((format!("noise {kind}, {time}"), noise));
        }
        for (kind, script) in damaged(random, time).into_iter().enumerate() {
            scripts.push((format!("damage {kind}, {time}"), script));
        }
    }
    scripts
}

/// A fresh script with some bytes changed, lost and added; and one with a CR before each LF.
fn damaged(random: &mut Random, time: usize) -> [Vec<u8>; 4] {
    let script = generate::incident(SEED + time as u64);
    let mut changed = script.clone();
    let mut lost = script.clone();
    let mut added = script.clone();
    for _ in 0..1 + random.below(6) {
        let place = random.below(script.len() + 1);
        let byte = random.byte();
        if let Some(one) = changed.get_mut(place) {
            *one = byte;
        }
        if place < lost.len() {
            lost.remove(place);
        }
        let more = random.pick(&PUT_IN);
        added.splice(place..place, more.iter().copied());
    }
    let lines = script.split(|&byte| byte == b'\n');
    let with_crs = lines.collect::<Vec<_>>().join(&b"\r\n"[..]);
    [changed, lost, added, with_crs]
}
