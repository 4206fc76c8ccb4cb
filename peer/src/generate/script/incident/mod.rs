//! Scripts for the which program. Most frames come twice, so that a single one of them may be lost; in a plot one comes
//! once, and the script needs it to end in RUN. Others need several, or none, or end in fallback, or are too long.

mod alone;
mod endings;
mod finish;
mod numbers;
mod passages;
mod scatter;
mod scenes;
mod start;

use super::stage::{Copies, Stage};
use crate::module::Fixed;

type Plot = fn(&mut Stage);

/// The plots and how often each is in a hundred scripts or so.
const PLOTS: [(Plot, usize); 27] = [
    (alone::sync, 11),
    (alone::entry, 8),
    (alone::release, 5),
    (alone::first_sid, 3),
    (alone::second_sid, 4),
    (alone::tid, 5),
    (alone::output_write, 7),
    (alone::setting, 7),
    (numbers::ladder_to_release, 4),
    (numbers::ladder_to_outputs, 3),
    (numbers::shield, 4),
    (numbers::tid_shield, 3),
    (numbers::eight, 2),
    (passages::wrong_cycle, 3),
    (passages::order, 3),
    (passages::window, 3),
    (passages::marked, 2),
    (endings::all_twice, 8),
    (endings::spare_syncs, 4),
    (endings::plain, 5),
    (endings::fallback, 9),
    (endings::never_in_run, 3),
    (endings::nothing, 1),
    (endings::bad_alone, 1),
    (scenes::in_run, 12),
    (scenes::any, 3),
    (scenes::long, 1),
];

/// One script, from power-up.
pub fn incident(seed: u64) -> Vec<u8> {
    let mut stage = Stage::new(Fixed::DOORS, seed);
    stage.copies = Copies::Always;
    let deck: Vec<Plot> = PLOTS
        .iter()
        .flat_map(|&(plot, times)| vec![plot; times])
        .collect();
    stage.random.pick(&deck)(&mut stage);
    let mut lines = stage.lines().to_vec();
    scatter::among(&mut stage.random, &mut lines);
    finish::text(&mut stage.random, lines)
}
