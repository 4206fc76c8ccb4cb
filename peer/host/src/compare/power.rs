//! Power-up with any identifiers and any limit of requests, over any bytes.

use crate::call::{compared, Call};
use crate::tally::{Tally, POWER_UP};
use host::library::{saturn_power_up, SaturnAgent};
use host::state;
use peer::frame::{SidAssignment, BROADCAST};
use peer::generate::random::Random;
use peer::generate::speech;
use peer::module::{Agent, Fixed, REPLY_ROOM};

const TIMES: usize = 2000;

/// The header leaves open what the unused places of the recorded hold then: they must be the
/// same whatever was there before.
pub fn check(seed: u64, tally: &mut Tally) -> Result<(), String> {
    let random = &mut Random::new(seed);
    for time in 0..TIMES {
        let (mac, iid, ver) = (random.next(), random.next(), random.next() as u16);
        let limit = some_limit(random, time);
        let given = powered_up(random, mac, iid, ver, limit);
        let again = powered_up(random, mac, iid, ver, limit);
        let agent = Agent::power_up(mac, iid, ver, Fixed { limit });
        let wanted = state::laid_out(&agent, &given);
        if given != wanted || given != again {
            let what =
                format!("power-up with MAC {mac:X}, IID {iid:X}, VER {ver:X}, limit {limit}");
            return Err(format!(
                "{what}\nwanted {wanted:?}\ngiven  {given:?}\nagain  {again:?}"
            ));
        }
        tally.add_limited(POWER_UP, limit);
        first_calls(&given, mac, tally)?;
    }
    Ok(())
}

/// Every byte once; then 16, 64 or any.
fn some_limit(random: &mut Random, time: usize) -> u8 {
    let any = random.byte();
    let some = random.pick(&[Fixed::LIGHTING.limit, Fixed::DOORS.limit, any]);
    u8::try_from(time).unwrap_or(some)
}

/// A tick and a frame on the state that power-up left; with an unfit limit both are 19.
fn first_calls(state: &SaturnAgent, mac: u64, tally: &mut Tally) -> Result<(), String> {
    let (src, sec, sid) = (1, 2, 3);
    let assignment = SidAssignment { src, sec, mac, sid };
    let frame = Call::Frame {
        port: 1,
        body: speech::sid(BROADCAST, assignment).body(),
        room: REPLY_ROOM,
    };
    for call in [Call::Tick(vec![0; 64]), frame] {
        let answer = compared(state, &call)?.answer;
        tally.add_limited(&format!("answer {answer:2}"), state.fixed.limit);
    }
    Ok(())
}

fn powered_up(random: &mut Random, mac: u64, iid: u64, ver: u16, limit: u8) -> SaturnAgent {
    let mut state = any_state(random);
    unsafe { saturn_power_up(&mut state, mac, iid, ver, limit) };
    state
}

fn any_state(random: &mut Random) -> SaturnAgent {
    let mut state = state::BLANK;
    state.regs.fill_with(|| random.byte());
    state.known.fill_with(|| random.next() as u32);
    state.last = random.next() as u32;
    (state.silence, state.idle) = (random.next() as u16, random.next() as u16);
    (state.mode, state.heard, state.count) = (random.byte(), random.byte(), random.byte());
    state.mark = random.byte();
    (state.cycle, state.elapsed, state.taken) = (random.byte(), random.byte(), random.byte());
    state.fixed.limit = random.byte();
    state
}
