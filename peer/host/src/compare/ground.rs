//! Register 26h: ticks in RUN that meet its grounds, each alone and several at once; and the names of
//! what must come up with it.

use host::library::{SaturnAgent, FALLBACK, RUN};
use peer::generate::random::Random;
use peer::module::ground::{shown, Ground, NO_GROUND};
use peer::module::registers::{CNF_CYC, CNF_REP, GROUND, TCYC};

/// Whether the tick meets sync silence, command silence and the window.
pub type Meeting = [bool; 3];

pub const MEETINGS: [(&str, Meeting); 7] = [
    ("sync silence", [true, false, false]),
    ("command silence", [false, true, false]),
    ("window", [false, false, true]),
    ("both silences", [true, true, false]),
    ("sync silence and window", [true, false, true]),
    ("command silence and window", [false, true, true]),
    ("all three", [true, true, true]),
];

/// Whether there is such a state with the limits at hand, and if so makes it, one ms before.
pub fn alter(random: &mut Random, state: &mut SaturnAgent, meeting: Meeting) -> bool {
    let [sync, output, window] = meeting;
    let register = |place: u8| state.regs[place as usize] as u16;
    let time = register(TCYC);
    let limits = [time * register(CNF_CYC), time * register(CNF_REP)];
    // The mark alone is no window, and neither is the clock end alone.
    let marked = window || random.one_in(2);
    let ends = window || !marked;
    let [Some(silence), Some(idle), Some(elapsed)] = [
        before(random, limits[0], sync),
        before(random, limits[1], output),
        before(random, time, ends),
    ] else {
        return false;
    };
    (state.silence, state.idle, state.elapsed) = (silence, idle, elapsed as u8);
    state.mark = marked as u8;
    state.regs[GROUND as usize] = some_value(random);
    true
}

/// A clock that the next tick brings to its limit, or one that it does not.
fn before(random: &mut Random, limit: u16, reached: bool) -> Option<u16> {
    match reached {
        true => Some(limit - 1),
        false => (limit > 1).then(|| random.below(limit as usize - 1) as u16),
    }
}

/// Any that is sound.
pub fn some_value(random: &mut Random) -> u8 {
    random.below(Ground::Window.number() as usize + 1) as u8
}

pub fn met(name: &str) -> String {
    format!("left RUN on a tick of {name}")
}

/// For a call that led from RUN to fallback.
pub fn passage(before: &SaturnAgent, after: &SaturnAgent) -> Option<String> {
    let left = before.mode == RUN && after.mode == FALLBACK;
    left.then(|| left_run(after.regs[GROUND as usize]))
}

fn left_run(value: u8) -> String {
    format!("left RUN: {}", shown(value))
}

/// For a state that was not refused with 19.
pub fn sound(state: &SaturnAgent) -> String {
    sound_in(state.mode, state.regs[GROUND as usize])
}

fn sound_in(mode: u8, value: u8) -> String {
    let mode = if mode == RUN { "RUN" } else { "fallback" };
    format!("sound: 26h {value} in {mode}")
}

/// All that must come up.
pub fn all() -> Vec<String> {
    let values = NO_GROUND..=Ground::Window.number();
    let sound = values.flat_map(|value| [RUN, FALLBACK].map(|mode| sound_in(mode, value)));
    let passages = Ground::ALL.map(|ground| left_run(ground.number()));
    let meetings = MEETINGS.map(|(name, _)| met(name));
    sound.chain(passages).chain(meetings).collect()
}
