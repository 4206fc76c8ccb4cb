//! Seeded scripts: scenes on a stage whose module plays along.

mod cycles;
mod faults;
mod floods;
mod grounds;
mod incident;
mod lines;
mod load;
mod manners;
mod names;
mod notes;
mod opening;
mod pairs;
mod reads;
mod settings;
mod silences;
mod skips;
mod spans;
mod stage;
mod takeover;
mod turns;
mod windows;

pub use incident::incident;
pub use load::loads;

use crate::module::Fixed;
use stage::Stage;

type Scene = fn(&mut Stage);

/// The scenes and how often each is in a deck.
const SCENES: [(Scene, usize); 50] = [
    (cycles::steady, 4),
    (cycles::wrap, 3),
    (windows::edges, 11),
    (windows::silence, 3),
    (grounds::passages, 7),
    (grounds::references, 2),
    (takeover::in_run, 7),
    (takeover::in_fallback, 2),
    (takeover::round, 1),
    (takeover::late_closing, 2),
    (settings::change, 3),
    (settings::refused, 2),
    (settings::references, 3),
    (settings::shorter, 1),
    (silences::sync, 3),
    (silences::outputs, 6),
    (silences::inputs_alone, 3),
    (silences::pending_release, 4),
    (silences::after_refusal, 2),
    (silences::long, 2),
    (spans::edges, 9),
    (spans::outside, 2),
    (spans::release_values, 4),
    (reads::edges, 4),
    (reads::statut, 3),
    (floods::full_cycle, 2),
    (skips::first, 6),
    (skips::last, 6),
    (skips::counts, 4),
    (turns::cycle, 3),
    (turns::repeats, 3),
    (turns::order, 4),
    (turns::sync, 5),
    (turns::echo, 3),
    (names::tids, 4),
    (names::sids, 22),
    (faults::line, 16),
    (faults::addresses, 11),
    (faults::typs, 5),
    (faults::lengths, 6),
    (faults::forms, 5),
    (faults::crcs, 11),
    (faults::sources, 5),
    (faults::identities, 4),
    (faults::changed, 3),
    (pairs::outer, 3),
    (pairs::requests, 4),
    (pairs::others, 2),
    (notes::counters, 2),
    (notes::silent, 3),
];

/// Lines that are not frames, also in every deck.
const LINE_SCENES: [(Scene, usize); 3] = [(lines::bad, 5), (lines::long, 1), (lines::ports, 14)];

/// Long scenes, each played once in a long script, when this many hundredths of it are done.
const ONCE: [(usize, Scene); 2] = [(40, cycles::marathon), (60, lines::huge)];

const LONG: usize = 2000;

/// A script of `count` lines from power-up.
pub fn script(seed: u64, count: usize) -> Vec<u8> {
    script_as(Fixed::DOORS, seed, count)
}

/// A script whose scenes are for a module with this fixed at power-up. It must be sound.
pub fn script_as(fixed: Fixed, seed: u64, count: usize) -> Vec<u8> {
    let mut stage = Stage::new(fixed, seed);
    opening::play(&mut stage);
    play_on(&mut stage, count, &[&SCENES, &LINE_SCENES], once(count));
    stage.text(count)
}

/// The long scenes of a script with so many lines.
fn once(count: usize) -> Vec<(usize, Scene)> {
    match count >= LONG {
        true => ONCE.to_vec(),
        false => Vec::new(),
    }
}

/// Scenes from shuffled decks until there are `count` lines, and the long ones when their time has come.
fn play_on(
    stage: &mut Stage,
    count: usize,
    scenes: &[&[(Scene, usize)]],
    mut once: Vec<(usize, Scene)>,
) {
    let mut deck = Vec::new();
    while stage.length() < count {
        let done = 100 * stage.length() / count;
        // All eight concentrators are there when a fifth of the script is done.
        names::record_up_to(stage, 1 + done * 8 / 20);
        if let Some(&(start, scene)) = once.first() {
            if done >= start {
                once.remove(0);
                scene(stage);
            }
        }
        draw(&mut deck, stage, scenes)(stage);
        settings::tidy(stage);
    }
}

/// The next scene of a shuffled deck, a new one when it is used up.
fn draw(deck: &mut Vec<Scene>, stage: &mut Stage, scenes: &[&[(Scene, usize)]]) -> Scene {
    if deck.is_empty() {
        for &(scene, times) in scenes.iter().copied().flatten() {
            deck.extend(vec![scene; times]);
        }
        stage.random.shuffle(deck);
    }
    deck.pop().expect("a new deck has scenes")
}
