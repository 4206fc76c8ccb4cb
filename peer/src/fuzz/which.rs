//! Incidents compared: fresh scripts for the which program, a few of them with lines out of place, and what mattered.

use super::subject::{perhaps_mutated, whole, Kind, Script, Subject};
use crate::census;
use crate::generate;
use crate::generate::random::Random;
use crate::which;

/// One script in this many may have lines out of place.
const MUTATED_ONE_IN: usize = 6;

pub const WHICH: Subject = Subject {
    kind: Kind::Scripts,
    script,
    print: which_frame,
    count: |script, printed, counts| {
        for what in census::of_incident(script, printed) {
            *counts.entry(what).or_default() += 1;
        }
    },
};

fn script(seed: u64) -> Script {
    let random = &mut Random::new(!seed);
    let made = generate::incident(seed);
    match random.one_in(MUTATED_ONE_IN) {
        true => perhaps_mutated(random, &made),
        false => whole(&made),
    }
}

pub(crate) fn which_frame(text: &[u8]) -> Vec<u8> {
    let mut output = Vec::new();
    which::run(text, &mut output).expect("memory takes any text");
    output
}
