//! What is compared: where the scripts come from, what this program prints of one, and what is counted.

use super::mutate;
use crate::generate::random::Random;
use std::collections::BTreeMap;

pub type Counts = BTreeMap<String, usize>;

pub struct Subject {
    pub(super) kind: Kind,
    /// The script of a seed.
    pub(super) script: fn(u64) -> Script,
    pub(super) print: fn(&[u8]) -> Vec<u8>,
    /// Adds what a script, and what is printed of it, bring up.
    pub(super) count: fn(&[u8], &[u8], &mut Counts),
}

/// What the scripts are.
#[derive(Clone, Copy, Debug, Default, PartialEq, Eq)]
pub enum Kind {
    #[default]
    Scripts,
    /// Their lines are counts.
    Journeys,
}

pub struct Script {
    pub lines: Vec<Vec<u8>>,
    pub ending: Ending,
}

/// How the last line ends.
#[derive(Clone, Copy, Debug, PartialEq, Eq)]
pub enum Ending {
    Lf,
    NoLf,
}

impl Script {
    pub fn text(&self) -> Vec<u8> {
        self.ending.text(&self.lines)
    }
}

impl Ending {
    /// Each line with its LF, perhaps but the last; nothing for no line.
    pub fn text<L: AsRef<[u8]>>(self, lines: &[L]) -> Vec<u8> {
        let mut text = text(lines);
        if self == Ending::NoLf {
            text.pop();
        }
        text
    }
}

/// Each line with its LF; nothing for no line.
pub(crate) fn text<L: AsRef<[u8]>>(lines: &[L]) -> Vec<u8> {
    let mut text = Vec::new();
    for line in lines {
        text.extend(line.as_ref());
        text.push(b'\n');
    }
    text
}

/// A script as it was made, or, in half of all, with some lines out of place.
pub fn perhaps_mutated(random: &mut Random, made: &[u8]) -> Script {
    let mut script = whole(made);
    if random.one_in(2) {
        mutate::some(random, &mut script.lines);
    }
    script
}

/// A script as it was made.
pub fn whole(made: &[u8]) -> Script {
    let ending = match made.ends_with(b"\n") {
        true => Ending::Lf,
        false => Ending::NoLf,
    };
    let lines = made.strip_suffix(b"\n").unwrap_or(made);
    let lines = lines.split(|&byte| byte == b'\n').map(Vec::from);
    Script {
        lines: lines.collect(),
        ending,
    }
}
