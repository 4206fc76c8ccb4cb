//! Which states are sound. A host could hand in any state; no call works on an unsound one.

use super::registers::*;
use super::{assignable, ground, Agent, Mode, MARKED, NO_SID, RECORDED_MAX, UNMARKED};

impl Agent {
    pub fn sound(&self) -> bool {
        self.fixed.sound()
            && self.settings_sound()
            && self.concentrators_sound()
            && self.clocks_sound()
            && [UNMARKED, MARKED].contains(&self.mark)
            && match self.mode {
                Mode::Run => self.run_sound(),
                Mode::Fallback => self.fallback_sound(),
            }
    }

    fn settings_sound(&self) -> bool {
        let registers = &self.registers;
        let limits = [registers.tcyc(), registers.cnf_cyc(), registers.cnf_rep()];
        !limits.contains(&0)
            && [RELEASE, HOLD].contains(&registers[OUT_REP])
            && (registers[TID] == NO_TID || assignable(registers[TID]))
            && registers[TYP] == OUTPUT_MODULE_SIL2
            && registers[STATUT] & PTS == 0
            && ground::sound(registers[GROUND])
    }

    fn concentrators_sound(&self) -> bool {
        let recorded = &self.recorded;
        let distinct = (1..recorded.len()).all(|i| !recorded[..i].contains(&recorded[i]));
        let none_yet = self.registers.sid() == NO_SID;
        let source_sound = match self.source {
            Some(source) => recorded.contains(&source),
            None => !self.heard,
        };
        recorded.len() <= RECORDED_MAX
            && distinct
            && recorded.iter().all(|&sid| sid < NO_SID)
            && recorded.is_empty() == none_yet
            && source_sound
    }

    fn clocks_sound(&self) -> bool {
        self.taken <= self.fixed.limit && self.in_cycle <= 254
    }

    fn run_sound(&self) -> bool {
        self.registers[STATUT] & REP == 0
            && self.registers[OUT_REP] == RELEASE
            && (self.since_sync as u32) < self.sync_limit()
            && self.since_output < self.output_limit()
            && self.source.is_some()
    }

    fn fallback_sound(&self) -> bool {
        self.registers[STATUT] & REP != 0
            && self.registers.bytes[OUTPUTS].iter().all(|&byte| byte == 0)
            && self.since_output == 0
    }
}
