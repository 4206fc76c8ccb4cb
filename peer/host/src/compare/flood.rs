//! Requests at the end of a cycle's count: the due one, the one before it and four after it.

use crate::call::Call;
use host::library::SaturnAgent;
use peer::frame::Head;
use peer::generate::random::Random;
use peer::generate::speech;
use peer::module::registers::SID;
use peer::module::{first_seq, REPLY_ROOM};

/// The address of all modules.
const MODULES: u8 = 0x90;

/// From the last source; k is not 0.
pub fn request(random: &mut Random, state: &SaturnAgent) -> Call {
    let due = state.taken;
    let ahead = due + 1 + random.below(4) as u8;
    let distance = random.pick(&[due, due, due - 1, ahead, ahead]);
    let sid = SID as usize;
    let [low, middle, high] = [sid, sid + 1, sid + 2].map(|place| state.regs[place]);
    let head = Head {
        dest: u32::from_le_bytes([low, middle, high, 0]),
        src: state.last,
        cyc: state.cycle,
        seq: first_seq(state.cycle).wrapping_add(distance),
    };
    let draft = match random.below(4) {
        0 => speech::write(MODULES, head, 0x80, &[1, 2, 3]),
        1 => speech::write(MODULES, head, 0x26, &[1]),
        _ => speech::read(MODULES, head, 1, 0x20),
    };
    Call::Frame {
        port: random.pick(&[1, 2]),
        body: draft.body(),
        room: REPLY_ROOM,
    }
}
