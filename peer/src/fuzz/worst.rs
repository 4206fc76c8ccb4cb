//! Journeys compared: fresh ones, most of them about one or two stretches long, and what they bring up.

use super::subject::{Ending, Kind, Script, Subject};
use crate::census;
use crate::generate::random::Random;
use crate::journey;
use crate::worst;
use std::io;

/// One journey in this many has a last line without LF.
const NO_LF_ONE_IN: usize = 5;

pub const WORST: Subject = Subject {
    kind: Kind::Journeys,
    script: fresh,
    print: worst_thousand,
    count: |journey, printed, counts| {
        for what in census::of_journey(journey, printed) {
            *counts.entry(format!("journeys, {what}")).or_default() += 1;
        }
    },
};

fn fresh(seed: u64) -> Script {
    let random = &mut Random::new(seed);
    let lines = journey::fresh(random);
    // An empty last line would be none without its LF.
    let may_lack = lines.last().is_some_and(|line| !line.is_empty());
    let ending = match may_lack && random.one_in(NO_LF_ONE_IN) {
        true => Ending::NoLf,
        false => Ending::Lf,
    };
    Script { lines, ending }
}

/// A journey that fails, with counts made 0 if it still does, halves of the lines first.
pub fn zeros(
    mut lines: Vec<Vec<u8>>,
    fails: impl Fn(&[Vec<u8>]) -> io::Result<bool>,
) -> io::Result<Vec<Vec<u8>>> {
    let mut size = lines.len();
    while size > 0 {
        for start in (0..lines.len()).step_by(size) {
            let end = (start + size).min(lines.len());
            let mut less = lines.clone();
            let counts = less[start..end].iter_mut().filter(|line| is_count(line));
            let changed = counts.map(|line| *line = b"0".to_vec()).count();
            if changed > 0 && fails(&less)? {
                lines = less;
            }
        }
        size /= 2;
    }
    Ok(lines)
}

/// Above 0.
fn is_count(line: &[u8]) -> bool {
    (1..=3).contains(&line.len()) && line.iter().all(u8::is_ascii_digit) && line[0] != b'0'
}

pub(crate) fn worst_thousand(text: &[u8]) -> Vec<u8> {
    let mut output = Vec::new();
    worst::run(text, &mut output).expect("memory takes any text");
    output
}
