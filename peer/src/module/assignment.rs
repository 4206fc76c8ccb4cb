//! TID and SID assignments: the names that a concentrator gives.

use super::registers::TID;
use super::reply::Reply;
use super::{Agent, NO_SID, RECORDED_MAX};
use crate::frame::SidAssignment;
use crate::refusal::Refusal;

/// The TIDs of modules. 7Dh and 7Eh would look like stuffing.
pub fn assignable(tid: u8) -> bool {
    matches!(tid, 0x01..=0x8E) && !matches!(tid, 0x7D | 0x7E)
}

impl Agent {
    pub(super) fn own_address(&self) -> u8 {
        self.registers[TID]
    }

    /// Numbers 11 and 17.
    pub(super) fn assign_tid(&mut self, iid: u64, tid: u8) -> Result<(), Refusal> {
        if iid != self.registers.iid() {
            return Err(Refusal::Identity);
        }
        if !assignable(tid) {
            return Err(Refusal::NotAllowed);
        }
        self.registers[TID] = tid;
        Ok(())
    }

    /// Numbers 10, 11, 17 and 18.
    pub(super) fn assign_sid(&mut self, assignment: &SidAssignment) -> Result<Reply, Refusal> {
        if assignment.src == NO_SID {
            return Err(Refusal::Source);
        }
        if assignment.mac != self.registers.mac() {
            return Err(Refusal::Identity);
        }
        if assignment.sid == NO_SID || !self.may_become(assignment.sid) {
            return Err(Refusal::NotAllowed);
        }
        self.record(assignment.src)?;
        self.registers.set_sid(assignment.sid);
        Ok(Reply::Acknowledgement {
            dst: assignment.src,
            sec: assignment.sec,
        })
    }

    /// The first SID stays.
    fn may_become(&self, sid: u32) -> bool {
        [NO_SID, sid].contains(&self.registers.sid())
    }

    fn record(&mut self, src: u32) -> Result<(), Refusal> {
        if self.recorded.contains(&src) {
            return Ok(());
        }
        if self.recorded.len() == RECORDED_MAX {
            return Err(Refusal::NoPlace);
        }
        self.recorded.push(src);
        Ok(())
    }
}
