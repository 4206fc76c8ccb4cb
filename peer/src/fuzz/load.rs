//! Line loads compared: scripts made for the load program and others, long and short, and what their cycles bring up.

use super::subject::{perhaps_mutated, Counts, Kind, Script, Subject};
use crate::generate;
use crate::generate::random::Random;
use crate::{census, load};

/// One script in this many is made for other programs.
const OTHER_ONE_IN: usize = 5;

pub const LOAD: Subject = Subject {
    kind: Kind::Scripts,
    script,
    print: line_load,
    count: |script, _, counts| cycles(script, counts),
};

/// Most have some hundred lines; a few are long, a few so short that no cycle may open.
fn script(seed: u64) -> Script {
    let random = &mut Random::new(!seed);
    let count = match random.below(40) {
        0 => 3000,
        1..=5 => random.below(60),
        _ => 100 + random.below(700),
    };
    let made = match random.one_in(OTHER_ONE_IN) {
        true => generate::script(seed, count),
        false => generate::loads(seed, count),
    };
    perhaps_mutated(random, &made)
}

pub(crate) fn line_load(text: &[u8]) -> Vec<u8> {
    let mut output = Vec::new();
    load::run(text, &mut output).expect("memory takes any text");
    output
}

fn cycles(script: &[u8], counts: &mut Counts) {
    for (what, count) in census::of_load(script).counts {
        *counts.entry(what).or_default() += count;
    }
}
