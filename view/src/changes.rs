//! Registers that changed: what belongs together is one change, with its name, its address, and the old and the new value.

use crate::words;

pub struct Change {
    pub at: usize,
    pub old: Vec<u8>,
    pub new: Vec<u8>,
}

const OUTPUTS: usize = 0x80;
const INPUTS: usize = 0xC0;

pub fn between(old: &[u8; 256], new: &[u8; 256]) -> Vec<Change> {
    let mut changes = Vec::new();
    let mut at = 0;
    while at < 256 {
        let end = part_end(at, old, new);
        if old[at..end] != new[at..end] {
            changes.push(Change { at, old: old[at..end].to_vec(), new: new[at..end].to_vec() });
        }
        at = end;
    }
    changes
}

/// Where the part that starts at `at` ends: a number of several bytes is one part, and so is a run of outputs, or of inputs, that
/// all changed.
fn part_end(at: usize, old: &[u8; 256], new: &[u8; 256]) -> usize {
    if at < OUTPUTS {
        return at + words::register(at).map_or(1, |(_, length)| length);
    }
    let last = if at < INPUTS { INPUTS } else { 256 };
    let run = (at..last).take_while(|i| old[*i] != new[*i]).count();
    at + run.max(1)
}

impl Change {
    pub fn of_outputs(&self) -> bool {
        (OUTPUTS..INPUTS).contains(&self.at)
    }

    /// `TCYC (18h): FFh → 0Ah`, or by place `outputs 80h to 82h: 00 00 00 → 01 02 03`
    pub fn words(&self) -> String {
        let place = place(self.at, self.old.len());
        if self.at >= OUTPUTS {
            let name = if self.of_outputs() { "output" } else { "input" };
            let several = if self.old.len() > 1 { "s" } else { "" };
            return format!("{name}{several} {place}: {} → {}", bytes(&self.old), bytes(&self.new));
        }
        let name = words::register(self.at).map_or("register", |(name, _)| name);
        format!("{name} ({place}): {}h → {}h", number(&self.old), number(&self.new))
    }
}

fn place(at: usize, length: usize) -> String {
    match length {
        1 => format!("{at:02X}h"),
        _ => format!("{at:02X}h to {:02X}h", at + length - 1),
    }
}

fn bytes(all: &[u8]) -> String {
    all.iter().map(|b| format!("{b:02X}")).collect::<Vec<_>>().join(" ")
}

/// the low byte is at the low address
fn number(all: &[u8]) -> String {
    all.iter().rev().map(|b| format!("{b:02X}")).collect()
}

#[cfg(test)]
mod tests {
    use super::*;

    #[test]
    fn numbers_and_runs() {
        let old = [0; 256];
        let mut new = old;
        (new[0x14], new[0x18], new[0x80], new[0x81], new[0x83], new[0xBF], new[0xC0]) = (5, 10, 1, 2, 3, 4, 6);
        let words: Vec<_> = between(&old, &new).iter().map(Change::words).collect();
        let wanted = [
            "SID (14h to 16h): 000000h → 000005h",
            "TCYC (18h): 00h → 0Ah",
            "outputs 80h to 81h: 00 00 → 01 02",
            "output 83h: 00 → 03",
            "output BFh: 00 → 04",
            "input C0h: 00 → 06",
        ];
        assert_eq!(words, wanted);
    }
}
