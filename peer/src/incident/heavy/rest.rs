//! In fallback through nearly all ticks. The frames that lead to RUN stand last; most stand first and count in CPT_FOR, so
//! that a program that keeps the states between the lines, or looks for the same state further on, gains nothing. The ticks
//! are as long as can be: eight concentrators are recorded, TCYC is 1, and the silence is too long.

use super::super::hand::{blank, Hand};
use super::{unknown, HALF};
use crate::tape::FIRST;

/// Three frames, each of them twice.
const FRAMES_LAST: usize = 6;

pub fn script_of(ticks: u32) -> Vec<u8> {
    let set = settings();
    let more = HALF - FRAMES_LAST - set.length();
    let counted = set.say_times(more, &unknown());
    run(counted.ticks_times(HALF, ticks)).text()
}

/// Eight concentrators and a TCYC of 1, each frame twice.
fn settings() -> Hand {
    let others = 1..=7;
    let first = blank().assign(FIRST).twice();
    let eight = others.fold(first, |hand, src| hand.assign(src).twice());
    eight.sync(0x06).twice().write(0x18, &[1]).twice()
}

fn run(hand: Hand) -> Hand {
    let heard = hand.sync(0x07).twice();
    heard.write(0x17, &[0x55]).twice().sync(0x08).twice()
}
