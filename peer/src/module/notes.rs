//! What a refusal leaves: bits of STATUT, counts, and the mark.

use super::registers::{BFO, CPT_FOR, CPT_SEQ, ESE, STATUT};
use super::{Agent, MARKED};
use crate::refusal::Refusal;

impl Agent {
    pub(super) fn note(&mut self, refusal: Refusal) {
        match refusal {
            Refusal::BodySize | Refusal::Stuffing | Refusal::UnstuffedSize | Refusal::Fcs => {
                self.registers[STATUT] |= BFO;
            }
            Refusal::UnknownTyp => {
                self.registers[STATUT] |= BFO;
                self.registers.count(CPT_FOR);
            }
            Refusal::Cycle | Refusal::OutOfOrder => {
                self.registers[STATUT] |= ESE;
                self.registers.count(CPT_SEQ);
            }
            Refusal::Window => {
                self.registers[STATUT] |= ESE;
                self.mark = MARKED;
            }
            _ => {}
        }
    }
}
