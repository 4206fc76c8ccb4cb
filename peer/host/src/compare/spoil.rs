//! The ways to make a state unsound: each point of document 01's list and of decisions A18, R6.2, R1.4
//! and R5.5.

use host::library::{SaturnAgent, FALLBACK, RUN};
use peer::generate::random::Random;
use peer::module::ground::Ground;
use peer::module::registers::*;
use peer::module::{assignable, LIMITS};

pub struct Way {
    pub name: &'static str,
    /// Whether there is such a state in the mode at hand, and if so makes it.
    pub make: fn(&mut Random, &mut SaturnAgent) -> bool,
}

const fn way(name: &'static str, make: fn(&mut Random, &mut SaturnAgent) -> bool) -> Way {
    Way { name, make }
}

const NO_SID: u32 = 0xFF_FFFF;

pub const WAYS: [Way; 41] = [
    way("t is 0", |_, state| set(state, TCYC, 0)),
    way("n is 0", |_, state| set(state, CNF_CYC, 0)),
    way("m is 0", |_, state| set(state, CNF_REP, 0)),
    way("OUT_REP neither 55h nor AAh", |random, state| {
        let other = other_than(random, &[RELEASE, HOLD]);
        set(state, OUT_REP, other)
    }),
    way("TID not assignable", |random, state| {
        let tid = random.byte();
        set(state, TID, tid) && tid != NO_TID && !assignable(tid)
    }),
    way("TID 00h, 7Dh, 7Eh or 90h", |random, state| {
        let tid = random.pick(&[0x00, 0x7D, 0x7E, 0x90]);
        set(state, TID, tid)
    }),
    way("one recorded twice", twice),
    way("recorded FFFFFFh", |random, state| {
        record(random, state, NO_SID)
    }),
    way("recorded above FFFFFFh", |random, state| {
        let above = 1 << 24 | random.next() as u32;
        record(random, state, above)
    }),
    way("count of recorded 9", |_, state| {
        state.count = 9;
        true
    }),
    way("count of recorded above 8", |random, state| {
        state.count = 9 + random.below(247) as u8;
        true
    }),
    way("SID without a recorded one", |_, state| {
        let had = state.count > 0;
        (state.count, state.last, state.heard) = (0, NO_SID, 0);
        had
    }),
    way("recorded without a SID", |_, state| {
        let sid = SID as usize;
        state.regs[sid..sid + 3].fill(0xFF);
        state.count > 0
    }),
    way("first recorded without a SID", |random, state| {
        let none = state.count == 0;
        state.count = 1;
        state.known[0] = random.below(NO_SID as usize) as u32;
        none
    }),
    way("k one above the limit", |_, state| {
        state.taken = state.fixed.limit + 1;
        true
    }),
    way("k above the limit", |random, state| {
        let above = random.below(255 - state.fixed.limit as usize) as u8;
        state.taken = state.fixed.limit + 1 + above;
        true
    }),
    way("k 17 to 64 with limit 16", |random, state| {
        (state.taken, state.fixed.limit) = (17 + random.below(48) as u8, 16);
        true
    }),
    way("limit neither 16 nor 64", |random, state| {
        state.fixed.limit = other_than(random, &LIMITS);
        true
    }),
    way("limit 0, 15, 17, 63, 65 or 255", |random, state| {
        state.fixed.limit = random.pick(&[0, 15, 17, 63, 65, 255]);
        true
    }),
    way("e is 255", |_, state| {
        state.elapsed = 255;
        true
    }),
    way("last source not recorded", |random, state| {
        state.last = random.below(NO_SID as usize) as u32;
        !recorded(state, state.last)
    }),
    way("last source above FFFFFFh", |random, state| {
        state.last = 1 << 24 | random.next() as u32;
        true
    }),
    way("last source only in an unused place", |random, state| {
        let source = random.below(NO_SID as usize) as u32;
        let count = state.count as usize;
        if count == 8 || recorded(state, source) {
            return false;
        }
        (state.known[count], state.last) = (source, source);
        true
    }),
    way("heard without a source", |_, state| {
        (state.last, state.heard) = (NO_SID, 1);
        true
    }),
    way("RUN without a source", |_, state| {
        (state.last, state.heard) = (NO_SID, 0);
        state.mode == RUN
    }),
    way("TYP not 82h", |random, state| {
        let other = other_than(random, &[OUTPUT_MODULE_SIL2]);
        set(state, TYP, other)
    }),
    way("STATUT bit 7 not the mode's", |_, state| {
        set(state, STATUT, state.regs[STATUT as usize] ^ REP)
    }),
    way("STATUT bit 6 set", |_, state| {
        set(state, STATUT, state.regs[STATUT as usize] | PTS)
    }),
    way("RUN with OUT_REP AAh", |_, state| {
        set(state, OUT_REP, HOLD) && state.mode == RUN
    }),
    way("RUN with s at n x t", |random, state| {
        let limit = limit(state, CNF_CYC);
        state.silence = at_or_above(random, limit);
        state.mode == RUN
    }),
    way("RUN with q at m x t", |random, state| {
        let limit = limit(state, CNF_REP);
        state.idle = at_or_above(random, limit);
        state.mode == RUN
    }),
    way("fallback with an output", |random, state| {
        let place = 0x80 + random.below(64);
        state.regs[place] = other_than(random, &[0]);
        state.mode == FALLBACK
    }),
    way("fallback with q", |random, state| {
        state.idle = 1 + random.below(65_535) as u16;
        state.mode == FALLBACK
    }),
    way("the other mode", |_, state| {
        state.mode ^= 1;
        true
    }),
    way("mode neither of two", |random, state| {
        state.mode = other_than(random, &[FALLBACK, RUN]);
        true
    }),
    way("heard neither of two", |random, state| {
        state.heard = other_than(random, &[0, 1]);
        true
    }),
    way("mark neither of two", |random, state| {
        state.mark = other_than(random, &[0, 1]);
        true
    }),
    way("mark 2, 3, 128 or 255", |random, state| {
        state.mark = random.pick(&[2, 3, 128, 255]);
        true
    }),
    way("RUN with 26h above 5", |random, state| {
        let above = above_grounds(random);
        set(state, GROUND, above) && state.mode == RUN
    }),
    way("fallback with 26h above 5", |random, state| {
        let above = above_grounds(random);
        set(state, GROUND, above) && state.mode == FALLBACK
    }),
    way("26h 6, 7, 128 or 255", |random, state| {
        let above = random.pick(&[6, 7, 128, 255]);
        set(state, GROUND, above)
    }),
];

fn set(state: &mut SaturnAgent, register: u8, value: u8) -> bool {
    state.regs[register as usize] = value;
    true
}

fn other_than(random: &mut Random, these: &[u8]) -> u8 {
    loop {
        let byte = random.byte();
        if !these.contains(&byte) {
            return byte;
        }
    }
}

fn above_grounds(random: &mut Random) -> u8 {
    let last = Ground::Window.number();
    last + 1 + random.below((0xFF - last) as usize) as u8
}

fn recorded(state: &SaturnAgent, source: u32) -> bool {
    state.known[..state.count as usize].contains(&source)
}

/// One of the others becomes the same as another one.
fn twice(random: &mut Random, state: &mut SaturnAgent) -> bool {
    let count = state.count as usize;
    match count {
        0 => return false,
        1 => {
            state.known[1] = state.known[0];
            state.count = 2;
        }
        _ => {
            let first = random.below(count);
            let second = (first + 1 + random.below(count - 1)) % count;
            state.known[second] = state.known[first];
        }
    }
    true
}

/// In the place of a recorded one that is not the last source, or as one more.
fn record(random: &mut Random, state: &mut SaturnAgent, source: u32) -> bool {
    let count = state.count as usize;
    if count == 0 {
        return false;
    }
    let place = random.below(count);
    if state.known[place] != state.last {
        state.known[place] = source;
    } else if count < 8 {
        state.known[count] = source;
        state.count += 1;
    } else {
        return false;
    }
    true
}

fn limit(state: &SaturnAgent, cycles: u8) -> u16 {
    state.regs[TCYC as usize] as u16 * state.regs[cycles as usize] as u16
}

fn at_or_above(random: &mut Random, limit: u16) -> u16 {
    let more = random.below(0x1_0000 - limit as usize) as u16;
    match random.one_in(2) {
        true => limit,
        false => limit + more,
    }
}
