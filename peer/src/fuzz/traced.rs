//! Traces compared: scripts with scenes of all kinds, and how often each answer came.

use super::subject::{perhaps_mutated, Counts, Ending, Kind, Script, Subject};
use crate::generate;
use crate::generate::random::Random;
use crate::script::{self, Program};

/// One script in this many is a long one.
const LONG_ONE_IN: usize = 40;

pub const TRACE: Subject = Subject {
    kind: Kind::Scripts,
    script: |seed| Script {
        lines: script_lines(seed),
        ending: Ending::Lf,
    },
    print: trace,
    count: |_, printed, counts| answers(printed, counts),
};

/// Some hundred lines as the generator makes them, or those with some out of place.
pub(crate) fn script_lines(seed: u64) -> Vec<Vec<u8>> {
    let random = &mut Random::new(!seed);
    let count = match random.one_in(LONG_ONE_IN) {
        true => 3000,
        false => 100 + random.below(700),
    };
    perhaps_mutated(random, &generate::script(seed, count)).lines
}

pub(crate) fn trace(text: &[u8]) -> Vec<u8> {
    let mut output = Vec::new();
    script::run(Program::Trace, text, &mut output).expect("memory takes any text");
    output
}

/// The second field of every line but the header.
fn answers(traced: &[u8], counts: &mut Counts) {
    for line in traced.split(|&byte| byte == b'\n').skip(1) {
        if let Some(answer) = line.split(|&byte| byte == b' ').nth(1) {
            let answer = String::from_utf8_lossy(answer);
            *counts.entry(format!("answer {answer:>3}")).or_default() += 1;
        }
    }
}
