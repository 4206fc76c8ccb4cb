//! A write into the registers: where it may go, what it may hold, and what it does.

use super::ground::Ground;
use super::registers::*;
use super::{Agent, Mode};
use crate::refusal::Refusal;
use std::ops::RangeInclusive;

/// The spans that can be written. A write stays in one of them.
#[derive(Clone, Copy, Debug, PartialEq, Eq)]
enum Area {
    Release,
    CycleTime,
    Settings,
    Counters,
    Configuration,
    Outputs,
}

impl Agent {
    /// Number 16.
    pub(super) fn write(&mut self, add: u8, data: &[u8]) -> Result<(), Refusal> {
        let area = area(add, data.len()).ok_or(Refusal::Write)?;
        if !self.open(area) || !takes(area, add, data) {
            return Err(Refusal::Write);
        }
        self.registers.put(add, data);
        match area {
            Area::Release if data == [HOLD] => self.enter_fallback(Ground::Order),
            Area::Outputs => self.since_output = 0,
            _ => {}
        }
        Ok(())
    }

    fn open(&self, area: Area) -> bool {
        match area {
            Area::CycleTime | Area::Settings => self.mode == Mode::Fallback,
            Area::Outputs => self.mode == Mode::Run,
            Area::Release | Area::Counters | Area::Configuration => true,
        }
    }
}

/// `None` for no byte at all, and for bytes outside all areas or in two of them.
fn area(add: u8, length: usize) -> Option<Area> {
    let (area, span) = match add {
        0x17 => (Area::Release, 0x17..=0x17),
        0x18 => (Area::CycleTime, 0x18..=0x18),
        0x1A..=0x1D => (Area::Settings, 0x1A..=0x1D),
        0x1E..=0x24 => (Area::Counters, 0x1E..=0x24),
        0x25 => (Area::Configuration, 0x25..=0x25),
        0x80..=0xBF => (Area::Outputs, OUTPUTS),
        _ => return None,
    };
    ends_in(span, add, length).then_some(area)
}

fn ends_in(span: RangeInclusive<usize>, add: u8, length: usize) -> bool {
    length > 0 && span.contains(&(add as usize + length - 1))
}

fn takes(area: Area, add: u8, data: &[u8]) -> bool {
    match area {
        Area::Release => data == [RELEASE] || data == [HOLD],
        Area::CycleTime => data != [0],
        Area::Settings => (add..).zip(data).all(|(place, &byte)| {
            let must_count = place == CNF_REP || place == CNF_CYC;
            byte != 0 || !must_count
        }),
        Area::Counters | Area::Configuration | Area::Outputs => true,
    }
}
