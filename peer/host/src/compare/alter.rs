//! Changes that leave a sound state sound, though no script would reach it; and changes of any bytes.

use crate::ground;
use host::library::SaturnAgent;
use peer::generate::random::Random;
use peer::module::registers::{GROUND, STATUT};

type Change = fn(&mut Random, &mut SaturnAgent);

pub const HARMLESS: [(&str, Change); 12] = [
    ("e at 254", |_, state| state.elapsed = 254),
    ("e any", |random, state| {
        state.elapsed = random.below(255) as u8
    }),
    ("k at the limit", |_, state| state.taken = state.fixed.limit),
    ("k any up to the limit", |random, state| {
        state.taken = random.below(state.fixed.limit as usize + 1) as u8
    }),
    ("unheard", |_, state| state.heard = 0),
    // In either mode.
    ("mark set", |_, state| state.mark = 1),
    ("mark clear", |_, state| state.mark = 0),
    // In either mode, and before the first RUN too.
    ("26h any from 0 to 5", |random, state| {
        state.regs[GROUND as usize] = ground::some_value(random);
    }),
    ("c any", |random, state| state.cycle = random.byte()),
    ("STATUT bits 5 to 0", |random, state| {
        state.regs[STATUT as usize] |= random.byte() & 0x3F;
    }),
    ("unused places", |random, state| {
        for place in state.count as usize..8 {
            state.known[place] = random.next() as u32;
        }
    }),
    // In RUN this is unsound; the change is then dropped.
    ("s near its end", |random, state| {
        state.silence = 65_535 - random.below(3) as u16;
    }),
];

/// One to four bytes of the state become others.
pub fn any_bytes(random: &mut Random, state: &mut SaturnAgent) {
    for _ in 0..1 + random.below(4) {
        let byte = random.byte();
        match random.below(10) {
            0..=3 => state.regs[random.below(0x27)] = byte,
            4 => state.regs[random.below(256)] = byte,
            5 => state.known[random.below(8)] = random.next() as u32 >> random.below(24),
            6 => state.last = random.next() as u32 >> random.below(24),
            7 => state.silence = random.next() as u16,
            8 => state.idle = random.next() as u16 >> random.below(16),
            _ => {
                let fields = [
                    &mut state.cycle,
                    &mut state.elapsed,
                    &mut state.taken,
                    &mut state.mode,
                    &mut state.heard,
                    &mut state.mark,
                    &mut state.count,
                    &mut state.fixed.limit,
                ];
                *fields
                    .into_iter()
                    .nth(random.below(8))
                    .expect("one of eight") = byte;
            }
        }
    }
}
