//! The two modes and the ways between them.

use super::ground::Ground;
use super::registers::{GROUND, HOLD, OUTPUTS, OUT_REP, REP, STATUT};
use super::{Agent, UNMARKED};

#[derive(Clone, Copy, Debug, PartialEq, Eq)]
pub enum Mode {
    Fallback,
    Run,
}

impl Agent {
    /// Also in fallback: then it takes back a release that is pending, and 26h keeps its ground.
    pub(super) fn enter_fallback(&mut self, ground: Ground) {
        if self.mode == Mode::Run {
            self.registers[GROUND] = ground.number();
        }
        self.mode = Mode::Fallback;
        self.registers.bytes[OUTPUTS].fill(0);
        self.registers[OUT_REP] = HOLD;
        self.registers[STATUT] |= REP;
        self.since_output = 0;
        self.mark = UNMARKED;
    }

    pub(super) fn enter_run(&mut self) {
        self.mode = Mode::Run;
        self.registers[STATUT] &= !REP;
        self.since_output = 0;
    }
}
