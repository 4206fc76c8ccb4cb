//! Which bits are flipped: every one, every two, or some that are drawn. The bytes are shown with
//! each choice flipped, and are as before at the end.

use crate::generate::random::Random;

/// So many flips at once are the most that are drawn.
const MOST: usize = 4;

pub fn every_one(bytes: &mut [u8], mut show: impl FnMut(&[u8])) {
    for bit in 0..8 * bytes.len() {
        flip(bytes, bit);
        show(bytes);
        flip(bytes, bit);
    }
}

pub fn every_two(bytes: &mut [u8], mut show: impl FnMut(&[u8])) {
    for second in 0..8 * bytes.len() {
        flip(bytes, second);
        for first in 0..second {
            flip(bytes, first);
            show(bytes);
            flip(bytes, first);
        }
        flip(bytes, second);
    }
}

/// `times` choices of `flips` different bits.
pub fn some(
    random: &mut Random,
    flips: usize,
    times: usize,
    bytes: &mut [u8],
    mut show: impl FnMut(&[u8]),
) {
    let bits = &mut [0; MOST][..flips];
    for _ in 0..times {
        draw(random, 8 * bytes.len(), bits);
        bits.iter().for_each(|&bit| flip(bytes, bit));
        show(bytes);
        bits.iter().for_each(|&bit| flip(bytes, bit));
    }
}

fn draw(random: &mut Random, limit: usize, bits: &mut [usize]) {
    let mut drawn = 0;
    while drawn < bits.len() {
        let bit = random.below(limit);
        if !bits[..drawn].contains(&bit) {
            bits[drawn] = bit;
            drawn += 1;
        }
    }
}

fn flip(bytes: &mut [u8], bit: usize) {
    bytes[bit / 8] ^= 0x80 >> (bit % 8);
}
