//! What register 26h brings up: the ground shown when RUN is left, what else that tick met, and where
//! 26h has to stay.

use crate::frame::Frame;
use crate::module::ground::{shown, Ground};
use crate::module::registers::{GROUND, HOLD, OUT_REP};
use crate::module::{Agent, Mode, MARKED};

/// The name of what must never come up.
pub const CHANGED: &str = "26h changed, RUN not left";

pub fn of_tick(before: &Agent, after: &Agent) -> Vec<String> {
    let mut events = of_call(before, after);
    if left(before, after) {
        events.extend(met(before, after));
    }
    let quiet = |agent: &Agent| agent.since_sync as u32 >= agent.sync_limit();
    // Only the first tick of a silence, though each of them enters fallback once more.
    if before.mode == Mode::Fallback && !quiet(before) && quiet(after) {
        events.push(again("sync silence", after));
    }
    events
}

pub fn of_frame(before: &Agent, after: &Agent) -> Vec<String> {
    let mut events = of_call(before, after);
    if left(before, after) && before.mark == MARKED {
        events.push(format!("{}, while marked", passage(after)));
    }
    events
}

/// Of a request that was accepted.
pub fn of_request(frame: &Frame, before: &Agent, after: &Agent) -> Option<String> {
    let to_release = matches!(frame, Frame::SafeWrite { span, .. } if span.add == OUT_REP);
    let ordered = to_release && after.registers[OUT_REP] == HOLD;
    (before.mode == Mode::Fallback && ordered).then(|| again("order", after))
}

fn of_call(before: &Agent, after: &Agent) -> Vec<String> {
    let same = before.registers[GROUND] == after.registers[GROUND];
    match (before.mode, after.mode) {
        (Mode::Run, Mode::Fallback) => vec![passage(after)],
        _ if !same => vec![CHANGED.to_string()],
        (Mode::Fallback, Mode::Run) => vec![format!("entered RUN, 26h {}", shows(after))],
        _ => Vec::new(),
    }
}

fn left(before: &Agent, after: &Agent) -> bool {
    before.mode == Mode::Run && after.mode == Mode::Fallback
}

fn shows(agent: &Agent) -> &'static str {
    shown(agent.registers[GROUND])
}

fn passage(after: &Agent) -> String {
    format!("left RUN: {}", shows(after))
}

fn again(why: &str, after: &Agent) -> String {
    format!("in fallback again by {why}, 26h {}", shows(after))
}

/// What the tick met apart from the ground that 26h shows.
fn met(before: &Agent, after: &Agent) -> Option<String> {
    let no_sync = after.since_sync as u32 >= after.sync_limit();
    let no_output = before.since_output + 1 >= before.output_limit();
    let (marked, ended) = (before.mark == MARKED, before.cycle != after.cycle);
    let others: Vec<&str> = [
        (Ground::SyncSilence, no_sync),
        (Ground::CommandSilence, no_output),
        (Ground::Window, marked && ended),
    ]
    .into_iter()
    .filter(|&(ground, came)| came && ground.number() != after.registers[GROUND])
    .map(|(ground, _)| ground.name())
    .collect();
    let passage = passage(after);
    match others[..] {
        [] if marked && !ended => Some(format!("{passage}, while marked")),
        [] => None,
        _ => Some(format!("{passage}, {} too", others.join(" and "))),
    }
}

/// The ground that a reply shows, if it covers 26h.
pub fn in_reply(frame: &Frame, data: &[u8]) -> Option<&'static str> {
    let Frame::SafeResponse { span, .. } = frame else {
        return None;
    };
    let place = GROUND.checked_sub(span.add)?;
    data.get(place as usize).copied().map(shown)
}
