//! A sync: the beginning of a cycle, and the step to RUN after a release.

use super::ground::Ground;
use super::registers::{OUT_REP, RELEASE};
use super::reply::Reply;
use super::{Agent, Mode, UNMARKED};
use crate::refusal::Refusal;

impl Agent {
    /// Number 10, then 13 before 12, then 22. Only RUN asks for a certain cycle and a certain time.
    pub(super) fn hear(&mut self, src: u32, cyc: u8) -> Result<Reply, Refusal> {
        if !self.recorded.contains(&src) {
            return Err(Refusal::Source);
        }
        if self.repeats(src, cyc) {
            return Err(Refusal::Repeat);
        }
        if self.mode == Mode::Run && !self.expects(cyc) {
            self.enter_fallback(Ground::WrongCycle);
            return Err(Refusal::Cycle);
        }
        if self.mode == Mode::Run && !self.in_window(cyc) {
            return Err(Refusal::Window);
        }
        self.begin_cycle(src, cyc);
        Ok(Reply::ToSync { dest: src })
    }

    fn repeats(&self, src: u32, cyc: u8) -> bool {
        self.heard && cyc == self.cycle && self.source == Some(src)
    }

    /// Whether RUN takes a sync of this cycle, at the right time.
    pub fn expects(&self, cyc: u8) -> bool {
        cyc == self.cycle.wrapping_add(1) || (!self.heard && cyc == self.cycle)
    }

    /// The sync of the next cycle may come a little early, that of this cycle a little late.
    pub fn in_window(&self, cyc: u8) -> bool {
        let width = self.window_width();
        match cyc == self.cycle {
            true => self.in_cycle <= width,
            false => self.in_cycle >= self.registers.tcyc() as u16 - width,
        }
    }

    fn begin_cycle(&mut self, src: u32, cyc: u8) {
        self.cycle = cyc;
        self.heard = true;
        self.mark = UNMARKED;
        self.source = Some(src);
        self.in_cycle = 0;
        self.since_sync = 0;
        self.taken = 0;
        if self.mode == Mode::Fallback && self.registers[OUT_REP] == RELEASE {
            self.enter_run();
        }
    }
}
