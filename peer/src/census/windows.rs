//! What a sync in RUN brings up: the edges of its window, and what becomes of the mark.

use crate::frame::Frame;
use crate::module::{Agent, Mode, MARKED};

/// Of a frame that was accepted or came outside its window.
pub fn events(frame: &Frame, before: &Agent, answer: u8) -> Vec<String> {
    let Frame::Sync { cyc, .. } = *frame else {
        return Vec::new();
    };
    if before.mode != Mode::Run || ![0, 22].contains(&answer) {
        return Vec::new();
    }
    let mut events = edges(before, cyc, answer);
    if before.mark == MARKED {
        events.push(match answer {
            0 => "mark healed".to_string(),
            _ => "second 22 while marked".to_string(),
        });
    }
    events
}

/// In a short cycle a ms may be at several edges.
fn edges(before: &Agent, cyc: u8, answer: u8) -> Vec<String> {
    let now = before.in_cycle as i32;
    let (t, w) = (before.registers.tcyc() as i32, before.window_width() as i32);
    let (due, edges) = match cyc == before.cycle {
        true => (
            "c",
            [("w - 1", w - 1), ("w", w), ("w + 1", w + 1), ("0", 0)],
        ),
        false => (
            "c + 1",
            [
                ("TCYC - w - 1", t - w - 1),
                ("TCYC - w", t - w),
                ("TCYC - 1", t - 1),
                ("0", 0),
            ],
        ),
    };
    let heard = if before.heard { "heard" } else { "unheard" };
    edges
        .into_iter()
        .filter(|&(_, place)| place == now)
        .map(|(name, _)| format!("sync in RUN, {heard}, CYC = {due}, e = {name}: {answer}"))
        .collect()
}
