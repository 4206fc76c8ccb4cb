//! Which lines of a script are struck: all that may be, and some of them.

use super::printed::Printed;
use crate::generate::random::Random;

/// The answers that the request names: lines with them may be struck.
pub const NAMED: [u8; 5] = [6, 9, 10, 11, 13];

/// And the others that leave everything as it is and come up in scripts.
pub const WIDER: [u8; 11] = [6, 9, 10, 11, 13, 5, 8, 15, 17, 18, 21];

pub struct Choice {
    pub name: &'static str,
    pub numbers: &'static [u8],
    /// For each line.
    pub struck: Vec<bool>,
}

/// No choice that strikes nothing.
pub fn some(random: &mut Random, printed: &Printed) -> Vec<Choice> {
    let all = printed.answered(&NAMED);
    let half = one_in(random, &all, 2);
    let eighth = one_in(random, &all, 8);
    let single = single(random, &all);
    let mut choices = Vec::new();
    for (name, struck) in [
        ("all with 6, 9, 10, 11 and 13 struck", all),
        ("half of them struck", half),
        ("one in eight of them struck", eighth),
        ("one of them struck", single),
    ] {
        choices.push(Choice {
            name,
            numbers: &NAMED,
            struck,
        });
    }
    choices.push(Choice {
        name: "all with 5, 8, 15, 17, 18 and 21 struck too",
        numbers: &WIDER,
        struck: printed.answered(&WIDER),
    });
    choices.retain(|choice| choice.struck.contains(&true));
    choices
}

fn one_in(random: &mut Random, all: &[bool], count: usize) -> Vec<bool> {
    all.iter().map(|&may| may && random.one_in(count)).collect()
}

fn single(random: &mut Random, all: &[bool]) -> Vec<bool> {
    let mut places: Vec<usize> = (0..all.len()).collect();
    places.retain(|&place| all[place]);
    let mut struck = vec![false; all.len()];
    if !places.is_empty() {
        struck[random.pick(&places)] = true;
    }
    struck
}
