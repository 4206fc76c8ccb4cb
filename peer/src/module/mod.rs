//! The agent of one SIL2 output module: its state, and what ticks and frames do to it.
//!
//! The names of document 01: `cycle` is c, `in_cycle` e, `since_sync` s, `since_output` q,
//! `taken` k; t, n and m are in the registers. `mark` is the mark of document 02's request 1; by its
//! request 4 k is the number after the highest taken in the cycle, counted from the first SEQ.

mod assignment;
mod call;
mod fixed;
pub mod ground;
mod mode;
mod notes;
pub mod registers;
mod reply;
mod request;
mod sound;
mod sync;
mod tick;
mod write;

pub use assignment::assignable;
pub use call::{Outcome, REPLY_ROOM};
pub use fixed::{Fixed, LIMITS};
pub use mode::Mode;
pub use request::{first_seq, SKIPPED_MAX};

use registers::Registers;

pub const RECORDED_MAX: usize = 8;
pub const NO_SID: u32 = 0xFF_FFFF;

/// The two values of the mark.
pub const UNMARKED: u8 = 0;
pub const MARKED: u8 = 1;

#[derive(Clone, Debug, PartialEq, Eq)]
pub struct Agent {
    pub registers: Registers,
    pub mode: Mode,
    pub cycle: u8,
    /// Whether the sync of this cycle was accepted.
    pub heard: bool,
    /// Whether a sync came outside its window and none was accepted since. One of two values,
    /// though the host may hand in any byte.
    pub mark: u8,
    pub in_cycle: u16,
    pub since_sync: u16,
    pub since_output: u32,
    pub taken: u8,
    /// The source of the last accepted sync.
    pub source: Option<u32>,
    /// The concentrators, in the order of their SID assignments.
    pub recorded: Vec<u32>,
    pub fixed: Fixed,
}

impl Agent {
    pub fn power_up(mac: u64, iid: u64, ver: u16, fixed: Fixed) -> Agent {
        Agent {
            registers: Registers::power_up(mac, iid, ver),
            mode: Mode::Fallback,
            cycle: 0,
            heard: false,
            mark: UNMARKED,
            in_cycle: 0,
            since_sync: 0,
            since_output: 0,
            taken: 0,
            source: None,
            recorded: Vec::new(),
            fixed,
        }
    }

    /// w: so many ms before or after the end of its cycle a sync may come in RUN.
    pub fn window_width(&self) -> u16 {
        (self.registers.tcyc() as u16 / 8).max(1)
    }

    /// n × t: this many ms without a sync are too many.
    pub fn sync_limit(&self) -> u32 {
        self.registers.cnf_cyc() as u32 * self.registers.tcyc() as u32
    }

    /// m × t: this many ms in RUN without an output write are too many.
    pub fn output_limit(&self) -> u32 {
        self.registers.cnf_rep() as u32 * self.registers.tcyc() as u32
    }
}
