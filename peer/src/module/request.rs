//! A safe request, read or write: whether the cycle takes it, and what the numbers that it skips leave.

use super::registers::{CPT_SEQ, ESE, STATUT};
use super::Agent;
use crate::frame::Head;
use crate::refusal::Refusal;

/// A request may come so many numbers ahead of the due one.
pub const SKIPPED_MAX: u8 = 3;

/// The SEQ of the first request in a cycle.
pub fn first_seq(cyc: u8) -> u8 {
    (!cyc).wrapping_add(1)
}

impl Agent {
    /// Numbers 10 to 15. A request that is taken counts, whatever then becomes of it.
    pub(super) fn take(&mut self, head: Head) -> Result<(), Refusal> {
        if self.source != Some(head.src) {
            return Err(Refusal::Source);
        }
        if head.dest != self.registers.sid() {
            return Err(Refusal::Identity);
        }
        if !self.heard || head.cyc != self.cycle {
            return Err(Refusal::Cycle);
        }
        let distance = head.seq.wrapping_sub(first_seq(head.cyc));
        self.check_turn(distance)?;
        self.skip_to(distance);
        self.taken = distance + 1;
        Ok(())
    }

    fn check_turn(&self, distance: u8) -> Result<(), Refusal> {
        if distance < self.taken {
            return Err(Refusal::Repeat);
        }
        if distance > self.taken + SKIPPED_MAX {
            return Err(Refusal::OutOfOrder);
        }
        if distance >= self.fixed.limit {
            return Err(Refusal::TooMany);
        }
        Ok(())
    }

    /// Each number from the due one up to this one, without it, is lost.
    fn skip_to(&mut self, distance: u8) {
        for _ in self.taken..distance {
            self.registers[STATUT] |= ESE;
            self.registers.count(CPT_SEQ);
        }
    }
}
