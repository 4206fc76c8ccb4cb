//! Syncs in RUN about the edges of their window, on states that a script would hardly reach.

use crate::call::Call;
use host::library::SaturnAgent;
use peer::generate::random::Random;
use peer::generate::speech;
use peer::module::registers::TCYC;
use peer::module::REPLY_ROOM;

/// At or beside an edge or at any ms, past the end of the cycle too; heard or not, marked or not.
pub fn alter(random: &mut Random, state: &mut SaturnAgent) {
    let time = state.regs[TCYC as usize];
    let width = (time / 8).max(1);
    let edge = random.pick(&[0, width, time - width, time]);
    let beside = edge.wrapping_add(random.pick(&[0, 0, 1, 0xFF]));
    let any = random.byte();
    state.elapsed = random.pick(&[beside, beside, any]).min(254);
    state.heard = random.pick(&[0, 1]);
    state.mark = random.pick(&[0, 1]);
}

/// Of this cycle or the next, from the last source.
pub fn sync(random: &mut Random, state: &SaturnAgent) -> Call {
    let cyc = state.cycle.wrapping_add(random.pick(&[0, 1, 1]));
    Call::Frame {
        port: random.pick(&[1, 2]),
        body: speech::sync(state.last, cyc).body(),
        room: REPLY_ROOM,
    }
}
