//! Noise: bytes of all kinds, or of few, alone and after a good journey.

use crate::generate::random::Random;

const SEED: u64 = 19;

/// So many of each kind.
const TIMES: usize = 10;

/// In bytes.
const LENGTH: usize = 5_000;

/// Few bytes, so that many lines are counts.
const FEW: [&[u8]; 3] = [b"01\n\n", b"\n\n\n\n0123456789", b"0\n\r"];

/// Each with its name.
pub fn journeys() -> Vec<(String, Vec<u8>)> {
    let random = &mut Random::new(SEED);
    let good = b"1\n".repeat(1_500);
    let mut journeys = Vec::new();
    for time in 0..TIMES {
        let any: Vec<u8> = (0..LENGTH).map(|_| random.byte()).collect();
        let few = FEW.map(|few| (0..LENGTH).map(|_| random.pick(few)).collect());
        for (kind, noise) in [any].into_iter().chain(few).enumerate() {
            let name = format!("noise {kind}, {time}");
            journeys.push((
                format!("{name}, after counts"),
                [&good[..], &noise].concat(),
            ));
            journeys.push((name, noise));
        }
    }
    journeys
}
