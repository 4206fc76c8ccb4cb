//! Scenes of other scripts, up to the last line after which the module is in RUN, or up to any.

use super::super::stage::{Copies, Stage};
use super::super::{draw, opening, play_on, LINE_SCENES, SCENES};
use super::start::run;
use crate::module::Mode;
use crate::script::Player;

/// Most of these scripts have fewer lines than are read.
const ROOM: usize = 190;

pub fn in_run(stage: &mut Stage) {
    any(stage);
    let count = last_run(stage.lines());
    stage.cut(count);
}

pub fn any(stage: &mut Stage) {
    stage.copies = stage.random.pick(&[
        Copies::Always,
        Copies::AlmostAlways,
        Copies::AlmostAlways,
        Copies::NowAndThen,
    ]);
    match stage.random.one_in(3) {
        true => opening::play(stage),
        false => run(stage, &[2, 3], &[5, 9]),
    }
    let mut deck = Vec::new();
    for _ in 0..1 + stage.random.below(4) {
        if stage.length() < ROOM {
            draw(&mut deck, stage, &[&SCENES])(stage);
        }
    }
    stage.cut(ROOM);
    stage.reach_run();
}

/// Too many lines.
pub fn long(stage: &mut Stage) {
    opening::play(stage);
    let count = 201 + stage.random.below(600);
    play_on(stage, count, &[&SCENES, &LINE_SCENES], Vec::new());
}

/// The number of the last line after which the module is in RUN; 0 if there is none.
fn last_run(lines: &[Vec<u8>]) -> usize {
    let mut player = Player::power_up();
    let mut last = 0;
    for (number, line) in (1..).zip(lines) {
        player.play(line);
        if player.agent.mode == Mode::Run {
            last = number;
        }
    }
    last
}
