//! Scripts that take long: as many lines as are read, half of them frames, half of them ticks, nearly all 60,000. They
//! end in RUN and no frame of them matters, so each removal is tried.

mod rest;
mod run;

use crate::generate::draft::Draft;
use crate::generate::speech;
use crate::script::TICKS_MAX;
use crate::tape::FIRST;
use crate::which::LINES_MAX;

/// Half of the lines are frames, half are ticks.
const HALF: usize = LINES_MAX / 2;

#[derive(Clone, Copy)]
pub struct Heavy {
    pub name: &'static str,
    pub what: &'static str,
    script_of: fn(u32) -> Vec<u8>,
}

pub const HEAVIES: [Heavy; 2] = [
    Heavy {
        name: "rest",
        what: "the heavy script at rest",
        script_of: rest::script_of,
    },
    Heavy {
        name: "run",
        what: "the heavy script in RUN",
        script_of: run::script_of,
    },
];

pub fn heavy(name: &str) -> Option<Heavy> {
    HEAVIES.into_iter().find(|heavy| heavy.name == name)
}

impl Heavy {
    pub fn script(&self) -> Vec<u8> {
        self.script_of(TICKS_MAX)
    }

    /// The same with so many ticks in each of the long lines. In RUN they are whole cycles of 250.
    pub fn script_of(&self, ticks: u32) -> Vec<u8> {
        (self.script_of)(ticks)
    }
}

/// A frame that only counts in CPT_FOR.
fn unknown() -> Draft {
    speech::sync(FIRST, 0x01).with(0, 0x08)
}
