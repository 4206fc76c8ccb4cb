//! Scripts by hand from which lines are struck, in every choice there is.

use super::module::FIRST;
use super::refusals::*;
use super::{programs, Tally};
use crate::generate::draft::Draft;
use crate::generate::speech;
use crate::hex;
use crate::module::Fixed;
use crate::strike::{without, Printed, Programs, NAMED};
use crate::tape::Tape;

/// A script, and the lines in it that may be struck, by number and answer.
type Case = (&'static str, fn() -> Tape, &'static [(usize, u8)]);

const CASES: [Case; 8] = [
    ("the last lines", last_lines, &[(10, 13), (11, 6)]),
    ("each number, side by side", side_by_side, &NEIGHBOURS),
    (
        "repeats on the other port",
        repeats,
        &[(10, 13), (12, 13), (14, 13)],
    ),
    (
        "the deposed concentrator",
        deposed,
        &[(11, 10), (12, 10), (16, 10)],
    ),
    (
        "names for others",
        names,
        &[(10, 11), (11, 11), (12, 10), (13, 9)],
    ),
    (
        "between ticks up to a limit",
        ticking,
        &[(11, 9), (13, 10), (15, 6)],
    ),
    (
        "while the mark is set",
        marked,
        &[(12, 13), (13, 9), (14, 10), (15, 6)],
    ),
    ("BAD lines between", bad_lines, &[(11, 13), (13, 13)]),
];

const NEIGHBOURS: [(usize, u8); 6] = [(11, 13), (12, 11), (13, 10), (14, 9), (15, 6), (16, 13)];

pub fn run(tally: &mut Tally) {
    for fixed in [Fixed::DOORS, Fixed::LIGHTING] {
        for (what, tape, answers) in CASES {
            every_choice(tally, fixed, what, &tape(), answers);
        }
    }
    for (fixed, answers) in [
        (Fixed::LIGHTING, [(27, 13), (29, 13)]),
        (Fixed::DOORS, [(75, 13), (77, 13)]),
    ] {
        let tape = full_cycle(fixed.limit);
        every_choice(tally, fixed, "a full cycle", &tape, &answers);
    }
    nothing_left(tally);
    deposed_sync(tally);
}

/// The lines have these answers, no others may be struck, and every choice among them leaves the same texts.
fn every_choice(tally: &mut Tally, fixed: Fixed, what: &str, tape: &Tape, answers: &[(usize, u8)]) {
    let programs = programs::right(fixed);
    let printed = programs.trace.print(&tape.lines).expect("memory");
    let Ok(whole) = Printed::read(&printed, tape.lines.len()) else {
        return tally.check(false, what);
    };
    let numbers = (1..).zip(whole.answered(&NAMED));
    let open: Vec<(usize, u8)> = numbers
        .filter(|(_, open)| *open)
        .map(|(number, _)| (number, whole.answer(number - 1).unwrap_or(0)))
        .collect();
    let limit = fixed.limit;
    tally.check(open == answers, &format!("limit {limit}, {what}: {open:?}"));
    for choice in 0..1 << answers.len() {
        let mut struck = vec![false; tape.lines.len()];
        for (bit, (number, _)) in answers.iter().enumerate() {
            struck[number - 1] = choice >> bit & 1 == 1;
        }
        let same = printed_without(&programs, tape, &struck) == without(&whole, &struck);
        tally.check(same, &format!("limit {limit}, {what}, choice {choice:b}"));
    }
}

fn printed_without(programs: &Programs, tape: &Tape, struck: &[bool]) -> Vec<u8> {
    let lines = tape.lines.iter().zip(struck);
    let left: Vec<&Vec<u8>> = lines
        .filter(|(_, &struck)| !struck)
        .map(|(line, _)| line)
        .collect();
    programs.trace.print(&left).expect("memory")
}

/// A script of struck lines alone leaves the header.
fn nothing_left(tally: &mut Tally) {
    let programs = programs::right(Fixed::DOORS);
    let foreign = Draft {
        address: 0x21,
        ..speech::sync(FIRST, 0x07)
    };
    let mut tape = Tape::running();
    tape.lines.clear();
    tape.say(1, &foreign);
    tape.say(2, &foreign);
    let printed = programs.trace.print(&tape.lines).expect("memory");
    let whole = Printed::read(&printed, 2).ok();
    let right = whole.is_some_and(|whole| {
        let left = printed_without(&programs, &tape, &[true; 2]);
        whole.answered(&[6]) == [true; 2]
            && left == whole.header
            && left == without(&whole, &[true; 2])
    });
    tally.check(right, "nothing left but the header");
}

/// A sync of the deposed one in the heard cycle is 12 and fallback: striking it is noticed.
fn deposed_sync(tally: &mut Tally) {
    let programs = programs::right(Fixed::DOORS);
    let mut tape = deposed();
    let place = 10;
    let sync = format!("1 {}", hex::encode(&speech::sync(FIRST, 0x08).body()));
    tape.lines.insert(place, sync.into_bytes());
    let printed = programs.trace.print(&tape.lines).expect("memory");
    let mut struck = vec![false; tape.lines.len()];
    struck[place] = true;
    let noticed = Printed::read(&printed, tape.lines.len()).is_ok_and(|whole| {
        whole.answer(place) == Some(12)
            && printed_without(&programs, &tape, &struck) != without(&whole, &struck)
    });
    tally.check(noticed, "a sync of the deposed one");
}
