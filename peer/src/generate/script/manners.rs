//! What the active concentrator would say next, and the ways into each mode.

use super::super::draft::Draft;
use super::super::speech;
use super::stage::Stage;
use crate::frame::{Head, SidAssignment, BROADCAST};
use crate::module::registers::{HOLD, OUT_REP, RELEASE, TID};
use crate::module::{first_seq, Mode, UNMARKED};

/// The address of all modules.
pub const MODULES: u8 = 0x90;

/// No scene tries for ever, whatever the module does. A right one needs one or two tries.
pub const TRIES: usize = 10;

/// One sync in this many does not wait for its window.
const TOO_EARLY: usize = 40;

/// A wait that is short enough to be played whole.
const WAIT_MAX: u32 = 20_000;

impl Stage {
    pub fn running(&self) -> bool {
        self.agent().mode == Mode::Run
    }

    pub fn own_sid(&self) -> u32 {
        self.registers().sid()
    }

    pub fn own_tid(&self) -> u8 {
        self.registers()[TID]
    }

    /// Any address at which the module listens.
    pub fn address(&mut self) -> u8 {
        let own = self.own_tid();
        self.random.pick(&[own, own, own, MODULES, BROADCAST])
    }

    /// The source of the last accepted sync, or else the first recorded.
    pub fn active(&self) -> u32 {
        let first = self.agent().recorded.first().copied();
        self.agent().source.or(first).unwrap_or(0x11_EE11)
    }

    /// A recorded concentrator that is not the active one.
    pub fn passive(&mut self) -> Option<u32> {
        let active = self.active();
        let mut others = self.agent().recorded.clone();
        others.retain(|&sid| sid != active);
        (!others.is_empty()).then(|| self.random.pick(&others))
    }

    /// The head of the request that is due.
    pub fn head(&self) -> Head {
        self.head_at(self.agent().taken)
    }

    /// The head of a request at some distance from the first of the cycle.
    pub fn head_at(&self, distance: u8) -> Head {
        let cyc = self.agent().cycle;
        Head {
            dest: self.own_sid(),
            src: self.active(),
            cyc,
            seq: first_seq(cyc).wrapping_add(distance),
        }
    }

    pub fn due_write(&mut self, add: u8, data: &[u8]) -> Draft {
        speech::write(self.address(), self.head(), add, data)
    }

    pub fn due_read(&mut self, datl: u8, add: u8) -> Draft {
        speech::read(self.address(), self.head(), datl, add)
    }

    pub fn write(&mut self, add: u8, data: &[u8]) -> u8 {
        let draft = self.due_write(add, data);
        self.send(&draft)
    }

    pub fn read(&mut self, datl: u8, add: u8) -> u8 {
        let draft = self.due_read(datl, add);
        self.send(&draft)
    }

    pub fn sync(&mut self, src: u32, cyc: u8) -> u8 {
        self.send(&speech::sync(src, cyc))
    }

    /// An assignment of the own SID to the own MAC.
    pub fn assignment(&mut self, src: u32) -> SidAssignment {
        SidAssignment {
            src,
            sec: self.random.next() as u32,
            mac: self.registers().mac(),
            sid: self.own_sid(),
        }
    }

    /// A CYC that a sync of the active concentrator may have now. In RUN it is one in its window, if
    /// there is one.
    pub fn next_cycle(&mut self) -> u8 {
        let (cycle, heard) = (self.agent().cycle, self.agent().heard);
        let next = cycle.wrapping_add(1);
        if self.running() {
            let mut fitting = vec![cycle, cycle, next];
            fitting.retain(|&cyc| self.agent().expects(cyc));
            let mut in_time = fitting.clone();
            in_time.retain(|&cyc| self.agent().in_window(cyc));
            return match in_time.is_empty() {
                true => self.random.pick(&fitting),
                false => self.random.pick(&in_time),
            };
        }
        let near_wrap = self.random.pick(&[0xFD, 0xFE, 0xFF, 0x00]);
        let any = self.random.byte();
        let wish = self.random.pick(&[next, next, next, near_wrap, any]);
        match heard && wish == cycle {
            true => next,
            false => wish,
        }
    }

    /// The ms up to the end of the cycle.
    pub fn cycle_left(&self) -> u32 {
        let cycle = self.registers().tcyc() as u32;
        cycle.saturating_sub(self.agent().in_cycle as u32)
    }

    /// In RUN, up to where a sync is in its window: late in the cycle or, if no mark has to go
    /// before, early in the next one. Never so long that RUN would end; now and then not at all.
    pub fn reach_window(&mut self) {
        let cyc = self.next_cycle();
        if !self.running() || self.agent().in_window(cyc) || self.random.one_in(TOO_EARLY) {
            return;
        }
        let (left, width) = (self.cycle_left(), self.agent().window_width() as u32);
        let mut waits = vec![left - width, left - 1];
        if self.agent().mark == UNMARKED {
            let late = self.random.below(width as usize + 1) as u32;
            waits.extend([left, left, left + late]);
        }
        waits.retain(|&wait| wait <= self.patience());
        if !waits.is_empty() {
            let wait = self.random.pick(&waits);
            match self.random.one_in(4) {
                true => self.ticks(wait),
                false => self.held(wait),
            }
        }
    }

    pub fn begin_cycle(&mut self) {
        self.reach_window();
        let cyc = self.next_cycle();
        self.sync(self.active(), cyc);
    }

    /// A heard cycle that takes `room` more requests, if they skip no number. `room` is at most the limit.
    pub fn heard_cycle(&mut self, room: u8) {
        if !self.agent().heard || self.agent().taken > self.limit() - room {
            self.begin_cycle();
        }
    }

    pub fn reach_run(&mut self) {
        for _ in 0..TRIES {
            if self.running() {
                return;
            }
            self.heard_cycle(1);
            if !self.running() && self.registers()[OUT_REP] == HOLD {
                self.write(OUT_REP, &[RELEASE]);
            }
            self.begin_cycle();
        }
    }

    /// A heard cycle in fallback, no release pending.
    pub fn heard_in_fallback(&mut self, room: u8) {
        self.reach_fallback();
        if self.registers()[OUT_REP] == RELEASE {
            self.order_fallback();
        }
        self.heard_cycle(room);
    }

    pub fn reach_fallback(&mut self) {
        for _ in 0..TRIES {
            if !self.running() {
                return;
            }
            let left = self
                .agent()
                .sync_limit()
                .saturating_sub(self.agent().since_sync as u32);
            match self.random.below(4) {
                0 => self.wrong_cycle(),
                1 if left <= WAIT_MAX => self.ticks(left),
                _ => self.order_fallback(),
            }
        }
    }

    pub fn order_fallback(&mut self) {
        self.heard_cycle(1);
        self.write(OUT_REP, &[HOLD]);
    }

    /// A sync that RUN does not accept.
    pub fn wrong_cycle(&mut self) {
        let cyc = self.agent().cycle;
        let ahead = self.random.pick(&[2, 3, 0x80, 0xFE, 0xFF]);
        let body = speech::sync(self.active(), cyc.wrapping_add(ahead)).body();
        self.say(&body);
    }

    /// One mode or the other, the cycle heard.
    pub fn some_mode(&mut self, room: u8) {
        match self.random.below(8) {
            0..=3 => self.reach_run(),
            4 | 5 => self.reach_fallback(),
            _ => {}
        }
        self.heard_cycle(room);
    }

    /// So many ticks leave RUN as it is.
    pub fn patience(&self) -> u32 {
        let agent = self.agent();
        let sync_left = agent.sync_limit().saturating_sub(agent.since_sync as u32);
        let output_left = agent.output_limit().saturating_sub(agent.since_output);
        sync_left.min(output_left).saturating_sub(1)
    }
}
