//! The second implementation behind calls of the same shape as the library's.
//!
//! Each pointer must be valid for its whole length, as in `include/saturn.h`.

use peer::module::Agent;
use peer::refusal::Refusal;
use std::slice;

fn number(outcome: Result<(), Refusal>) -> u8 {
    outcome.map_or_else(Refusal::number, |()| 0)
}

#[no_mangle]
pub unsafe extern "C" fn peer_tick(
    agent: *mut Agent,
    inputs: *const u8,
    inputs_length: usize,
) -> u8 {
    number((*agent).tick(slice::from_raw_parts(inputs, inputs_length)))
}

#[no_mangle]
pub unsafe extern "C" fn peer_frame(
    agent: *mut Agent,
    port: u8,
    body: *const u8,
    body_length: usize,
    reply: *mut u8,
    reply_length: usize,
    sent: *mut u16,
) -> u8 {
    let body = slice::from_raw_parts(body, body_length);
    let reply = slice::from_raw_parts_mut(reply, reply_length);
    let outcome = (*agent).frame(port, body, reply);
    *sent = outcome.sent as u16;
    outcome.number
}
