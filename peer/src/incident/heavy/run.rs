//! In RUN through many ticks, so that a program that plays the ticks of a resting module quickly gains little. TCYC is 250 and
//! both limits of silence are 255 cycles: 60,000 ticks are 240 cycles, and RUN outlasts them. Each time a sync and an output
//! write follow, all of them twice. The frames that count in CPT_FOR stand before all ticks in RUN, so that the states without
//! one of them stay different to the end.

use super::super::hand::{blank, Hand};
use super::{unknown, HALF};

/// So often a sync, an output write and the ticks.
const ROUNDS: usize = 13;

/// Two frames, each of them twice.
const FRAMES_IN_ROUND: usize = 4;

/// Ten frames: SID, sync, TCYC, CNF_REP and CNF_CYC, release, each of them twice.
const FRAMES_FIRST: usize = 10;

const TCYC: u8 = 250;

/// The ticks are whole cycles.
pub fn script_of(ticks: u32) -> Vec<u8> {
    let waited = blank().ticks_times(HALF - 1 - ROUNDS, ticks);
    let released = waited.released(TCYC, 0xFF, 0xFF);
    let more = HALF - FRAMES_FIRST - FRAMES_IN_ROUND * ROUNDS;
    let counted = released.say_times(more, &unknown());
    rounds(counted.ticks(TCYC.into()), ticks).text()
}

/// From cycle 07h on, each begins in an unheard cycle.
fn rounds(hand: Hand, ticks: u32) -> Hand {
    let cycles = ticks / u32::from(TCYC);
    let numbers = (0..ROUNDS as u32).map(|round| 0x07 + round * cycles);
    // CYC has eight bits.
    numbers.fold(hand, |hand, number| {
        let heard = hand.sync(number as u8).twice();
        heard.write(0x80, &[0x01; 64]).twice().ticks(ticks)
    })
}
