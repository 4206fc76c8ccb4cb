//! The tick call: the host gives the inputs, all 64 at once, and one ms goes by.

use super::ground::Ground;
use super::registers::INPUTS;
use super::{Agent, Mode, MARKED};
use crate::refusal::Refusal;

impl Agent {
    /// Numbers 19 and 21: nothing is stored then, and no ms goes by.
    pub fn tick(&mut self, inputs: &[u8]) -> Result<(), Refusal> {
        if !self.sound() {
            return Err(Refusal::Unsound);
        }
        self.store(inputs)?;
        self.clocks_on();
        self.judge_silence();
        if self.in_cycle >= self.registers.tcyc() as u16 {
            self.end_cycle();
        }
        Ok(())
    }

    fn store(&mut self, inputs: &[u8]) -> Result<(), Refusal> {
        let registers = &mut self.registers.bytes[INPUTS];
        if inputs.len() != registers.len() {
            return Err(Refusal::Host);
        }
        registers.copy_from_slice(inputs);
        Ok(())
    }

    fn clocks_on(&mut self) {
        self.in_cycle += 1;
        self.since_sync = self.since_sync.saturating_add(1);
        if self.mode == Mode::Run {
            self.since_output += 1;
        }
    }

    /// Too long without a sync means fallback in either mode: a pending release ends too. When both
    /// silences end on one tick, that is the ground.
    fn judge_silence(&mut self) {
        let no_sync = self.since_sync as u32 >= self.sync_limit();
        let no_output = self.mode == Mode::Run && self.since_output >= self.output_limit();
        if no_sync {
            self.enter_fallback(Ground::SyncSilence);
        } else if no_output {
            self.enter_fallback(Ground::CommandSilence);
        }
    }

    /// A mark that no accepted sync has cleared by now means fallback.
    fn end_cycle(&mut self) {
        if self.mode == Mode::Run && self.mark == MARKED {
            self.enter_fallback(Ground::Window);
        }
        self.cycle = self.cycle.wrapping_add(1);
        self.heard = false;
        self.in_cycle = 0;
        self.taken = 0;
    }
}
