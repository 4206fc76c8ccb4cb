//! Seeded cases for the case programs (a fixed list of what must come up, then others), lines for
//! the frame program, scripts, and a ring of any length.

mod bad;
mod body_laying;
mod body_reading;
mod crc;
pub mod damage;
pub mod draft;
mod frame_faults;
mod frame_line_faults;
mod frame_lines;
mod frame_list_lines;
mod frame_reading;
mod frame_writing;
mod line;
pub mod random;
mod ring;
pub mod sample;
mod script;
pub mod speech;

pub use frame_lines::frame_lines;
pub use ring::{ring, Ring};
pub use script::{incident, loads, script, script_as};

use crate::cases::Program;
use random::Random;

/// The list is cut if `count` is smaller than its fixed part.
pub fn cases(program: Program, seed: u64, count: usize) -> Vec<String> {
    let random = &mut Random::new(seed);
    let mut lines = fixed(program, random);
    while lines.len() < count {
        let line = any(program, random);
        lines.push(line::recase(random, line));
    }
    lines.truncate(count);
    lines
}

fn fixed(program: Program, random: &mut Random) -> Vec<String> {
    match program {
        Program::Crc => crc::fixed(random),
        Program::Body => [
            body_reading::fixed(random),
            body_laying::fixed(random),
            bad::body(),
        ]
        .concat(),
        Program::Frame => [
            frame_reading::fixed(random),
            frame_writing::fixed(random),
            bad::frame(),
        ]
        .concat(),
    }
}

fn any(program: Program, random: &mut Random) -> String {
    match program {
        Program::Crc => crc::any(random),
        Program::Body => match random.below(5) {
            0..=2 => body_reading::any(random),
            _ => body_laying::any(random),
        },
        Program::Frame => match random.below(5) {
            0..=2 => frame_reading::any(random),
            _ => frame_writing::any(random),
        },
    }
}
