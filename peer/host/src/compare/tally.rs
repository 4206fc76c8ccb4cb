//! What came up and how often; some things must have come up.

use crate::alter::HARMLESS;
use crate::ground;
use crate::skip;
use crate::spoil::WAYS;
use peer::module::{LIMITS, REPLY_ROOM};
use std::collections::BTreeMap;
use std::fmt;
use std::process::ExitCode;

pub const POWER_UP: &str = "power-up";
pub const MARKED_ENDS: &str = "fallback at a marked clock end";
pub const SHORT_BUFFERS: &str = "short buffers";
pub const INPUTS_SOUND: &str = "inputs, the state sound";
pub const INPUTS_UNSOUND: &str = "inputs, the state unsound";

/// The longest inputs that are tried between the lines.
pub const INPUTS_MAX: usize = 130;

/// What is tried in every length, and the longest.
const LENGTHS: [(&str, usize); 3] = [
    (SHORT_BUFFERS, REPLY_ROOM - 1),
    (INPUTS_SOUND, INPUTS_MAX),
    (INPUTS_UNSOUND, INPUTS_MAX),
];

/// What must come up with each of these limits of requests; 0 stands for all that are unfit.
const BY_LIMIT: [(&str, &[u8]); 3] = [
    ("answer 15", &[16, 64]),
    ("answer 19", &[16, 64, 0]),
    (POWER_UP, &[16, 64, 0]),
];

#[derive(Default)]
pub struct Tally {
    counts: BTreeMap<String, usize>,
    lengths: BTreeMap<(&'static str, usize), usize>,
}

impl Tally {
    pub fn add(&mut self, what: &str) {
        *self.counts.entry(what.to_string()).or_default() += 1;
    }

    /// By the limit of the state too, if that is asked for.
    pub fn add_limited(&mut self, what: &str, limit: u8) {
        self.add(what);
        if BY_LIMIT.iter().any(|(asked, _)| *asked == what) {
            self.add(&limited(what, limit));
        }
    }

    pub fn add_length(&mut self, what: &'static str, length: usize) {
        *self.lengths.entry((what, length)).or_default() += 1;
    }

    pub fn count(&self, what: &str) -> usize {
        self.counts.get(what).copied().unwrap_or(0)
    }

    /// How often each length came, from 0 on.
    fn by_length(&self, what: &'static str, longest: usize) -> Vec<usize> {
        let count = |length| self.lengths.get(&(what, length)).copied();
        (0..=longest)
            .map(|length| count(length).unwrap_or(0))
            .collect()
    }

    /// What should have come up and did not.
    fn missing(&self) -> Vec<String> {
        let answers = (0..=22).map(|answer| format!("answer {answer:2}"));
        let ways = WAYS.iter().map(|way| format!("unsound: {}", way.name));
        let harmless = HARMLESS.iter().map(|(name, _)| format!("sound: {name}"));
        let by_limit = BY_LIMIT
            .iter()
            .flat_map(|&(what, limits)| limits.iter().map(move |&limit| limited(what, limit)));
        let lengths = LENGTHS.iter().flat_map(|&(what, longest)| {
            let counts = self.by_length(what, longest);
            let missing = (0..=longest).filter(move |&length| counts[length] == 0);
            missing.map(move |length| format!("{what}: length {length}"))
        });
        answers
            .chain([MARKED_ENDS.to_string()])
            .chain(ways)
            .chain(harmless)
            .chain(by_limit)
            .chain(ground::all())
            .chain(skip::all())
            .filter(|what| self.count(what) == 0)
            .chain(lengths)
            .collect()
    }

    pub fn verdict(&self) -> ExitCode {
        let missing = self.missing();
        for what in &missing {
            println!("MISSING: {what}");
        }
        match missing.is_empty() {
            true => ExitCode::SUCCESS,
            false => ExitCode::FAILURE,
        }
    }
}

fn limited(what: &str, limit: u8) -> String {
    match LIMITS.contains(&limit) {
        true => format!("{what}, limit {limit}"),
        false => format!("{what}, other limit"),
    }
}

impl fmt::Display for Tally {
    fn fmt(&self, output: &mut fmt::Formatter) -> fmt::Result {
        for (what, count) in &self.counts {
            writeln!(output, "{what}: {count}")?;
        }
        for (what, longest) in LENGTHS {
            let counts = self.by_length(what, longest);
            let least = counts.iter().min().unwrap_or(&0);
            let lengths = counts.len();
            writeln!(
                output,
                "{what}: {lengths} lengths, each at least {least} times"
            )?;
        }
        Ok(())
    }
}
