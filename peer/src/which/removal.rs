//! The removal of one frame line: all other lines are played anew, from power-up.

use crate::module::Mode;
use crate::script::{Line, Player};

/// All lines from power-up, BAD ones being `None`.
pub fn ends_in_run(lines: &[Option<Line>]) -> bool {
    let mut player = Player::power_up();
    for line in lines.iter().flatten() {
        player.play_line(line.clone());
    }
    player.agent.mode == Mode::Run
}

/// Whether the line of this number, counted from 1, is a frame line without which the script ends in fallback.
pub fn decides(lines: &[Option<Line>], number: usize) -> bool {
    let (before, after) = (&lines[..number - 1], &lines[number..]);
    let is_frame = matches!(lines[number - 1], Some(Line::Frame { .. }));
    is_frame && !ends_in_run(&[before, after].concat())
}

/// The numbers of all lines that matter in a script that ends in RUN.
pub fn mattering(lines: &[Option<Line>]) -> Vec<usize> {
    let numbers = 1..=lines.len();
    numbers.filter(|&number| decides(lines, number)).collect()
}
