//! What requests bring up by their number in the cycle: numbers skipped, those that come late, and those at
//! the limit.

use crate::frame::Frame;
use crate::module::registers::CPT_SEQ;
use crate::module::{first_seq, Agent};

/// The numbers skipped since the last accepted sync, counted from the first of the cycle.
#[derive(Default)]
pub struct Skips {
    skipped: Vec<u8>,
}

impl Skips {
    pub fn events(&mut self, frame: &Frame, before: &Agent, answer: u8) -> Vec<String> {
        match *frame {
            Frame::Sync { .. } if answer == 0 => self.skipped.clear(),
            Frame::SafeRead { head, .. } | Frame::SafeWrite { head, .. } => {
                let number = head.seq.wrapping_sub(first_seq(head.cyc));
                return self.request(number, before, answer);
            }
            _ => {}
        }
        Vec::new()
    }

    /// d is the request's number, k the one that was due.
    fn request(&mut self, d: u8, before: &Agent, answer: u8) -> Vec<String> {
        let (k, limit) = (before.taken, before.fixed.limit);
        let mut events = match answer {
            0 | 16 => self.taken(d, before, answer),
            13 if self.skipped.contains(&d) => vec!["13 to a number skipped".to_string()],
            13 => vec!["13 to a number taken".to_string()],
            14 if d - k == 4 => vec!["14, d = k + 4".to_string()],
            14 => vec!["14, d above k + 4".to_string()],
            15 => vec![format!("15, d = k + {}", d - k), format!("15, d = {d}")],
            _ => return Vec::new(),
        };
        if answer == 14 && (limit..=limit + 4).contains(&d) {
            events.push(format!("14, d = {d}"));
        }
        let edge = k <= 4 || k >= limit - 4;
        if answer != 13 && edge && d - k <= 4 {
            events.push(format!("k = {k}, {} ahead: {answer}", d - k));
        }
        events
    }

    /// Of a request that may have skipped some.
    fn taken(&mut self, d: u8, before: &Agent, answer: u8) -> Vec<String> {
        let count = d - before.taken;
        if count == 0 {
            return Vec::new();
        }
        self.skipped.extend(before.taken..d);
        let mut events = vec![format!("{count} skipped: {answer}")];
        if before.registers[CPT_SEQ].checked_add(count).is_none() {
            events.push(format!("{count} skipped: CPT_SEQ stops at 255"));
        }
        events
    }
}
