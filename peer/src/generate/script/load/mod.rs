//! Scripts for the load program: what a module sends in a cycle, how long the cycle is, and what neither opens nor ends
//! one. Scenes of other scripts are mixed in.

mod muted;
mod replies;
mod times;
mod within;

use super::stage::Stage;
use super::{cycles, faults, floods, lines, names, opening, play_on, settings, silences, skips};
use super::{once, reads, takeover, turns, windows, Scene};
use crate::frame::SidAssignment;
use crate::generate::speech;
use crate::module::Fixed;

const SCENES: [(Scene, usize); 15] = [
    (times::changed, 6),
    (times::there_and_back, 2),
    (times::busy, 5),
    (muted::several, 4),
    (muted::within, 3),
    (replies::stuffed, 4),
    (replies::long, 3),
    (replies::flood, 2),
    (replies::errors, 4),
    (replies::acknowledged, 4),
    (within::clock_ends, 5),
    (within::refused_syncs, 6),
    (within::fallback, 4),
    (within::bad_lines, 4),
    (within::one_line_each, 2),
];

/// Of other scripts.
const OTHERS: [(Scene, usize); 25] = [
    (cycles::steady, 3),
    (cycles::wrap, 1),
    (windows::edges, 1),
    (takeover::in_run, 2),
    (takeover::in_fallback, 2),
    (takeover::round, 1),
    (settings::change, 2),
    (settings::references, 1),
    (settings::shorter, 1),
    (silences::sync, 1),
    (silences::outputs, 1),
    (silences::pending_release, 1),
    (silences::long, 1),
    (reads::edges, 1),
    (floods::full_cycle, 1),
    (skips::first, 1),
    (turns::sync, 2),
    (turns::repeats, 1),
    (names::sids, 2),
    (names::tids, 1),
    (faults::line, 1),
    (faults::sources, 1),
    (lines::ports, 1),
    (lines::bad, 2),
    (lines::long, 1),
];

/// A script of `count` lines from power-up. Its last line sends something, unless the module is muted then.
pub fn loads(seed: u64, count: usize) -> Vec<u8> {
    let mut stage = Stage::new(Fixed::DOORS, seed);
    match stage.random.one_in(2) {
        true => opening::play(&mut stage),
        false => first_names(&mut stage),
    }
    play_on(&mut stage, count, &[&SCENES, &OTHERS], once(count));
    stage.cut(count.saturating_sub(1));
    last_line(&mut stage);
    stage.text(count)
}

/// Acknowledged several times before the first sync.
fn first_names(stage: &mut Stage) {
    for _ in 0..stage.random.below(3) {
        lines::bad(stage);
    }
    opening::first_sid(stage);
    for _ in 0..stage.random.below(3) {
        assign_again(stage);
    }
}

/// A known concentrator assigns the SID once more, which is acknowledged.
fn assign_again(stage: &mut Stage) {
    let body = assignment_again(stage);
    stage.say(&body);
}

fn assignment_again(stage: &mut Stage) -> Vec<u8> {
    let known = match &stage.agent().recorded[..] {
        [] => 0,
        recorded => recorded[stage.length() % recorded.len()],
    };
    let (address, assignment) = (stage.address(), stage.assignment(known));
    speech::sid(
        address,
        SidAssignment {
            sec: 1,
            ..assignment
        },
    )
    .body()
}

/// A read of any size that can be served or not, or an acknowledgement.
fn some_reply(stage: &mut Stage) {
    match stage.random.below(6) {
        0 => assign_again(stage),
        1 => drop(stage.read(64, 0xC0)),
        2 => drop(stage.read(0, 0x80)),
        _ => {
            let (datl, add) = (1 + stage.random.below(32) as u8, stage.random.byte());
            stage.read(datl, add);
        }
    }
}

/// A sync that is accepted, a read that is taken, or else an acknowledgement.
fn last_line(stage: &mut Stage) {
    let cyc = stage.next_cycle();
    let sync_due = !stage.running() || stage.agent().in_window(cyc);
    let body = match stage.random.below(3) {
        0 if sync_due => speech::sync(stage.active(), cyc).body(),
        1 if stage.agent().heard && stage.agent().taken < stage.limit() => {
            stage.due_read(8, 0x18).body()
        }
        _ => assignment_again(stage),
    };
    stage.say(&body);
}
