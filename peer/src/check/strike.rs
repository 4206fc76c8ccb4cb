//! Refused frames struck from generated scripts: the second program's own module prints the same of what is left, and
//! is in the same state, with either limit of requests. And the terminals show what the watcher works out.

use super::programs;
use super::Tally;
use crate::fuzz;
use crate::generate;
use crate::generate::random::Random;
use crate::module::{Agent, Fixed};
use crate::script::{Played, Player};
use crate::strike::{between, try_script, Count, Report, LEAVING, NAMED, WIDER};

/// Seeds and limits of the scripts, all with frames between.
const SCRIPTS: [(u64, Fixed); 6] = [
    (51, Fixed::DOORS),
    (52, Fixed::LIGHTING),
    (53, Fixed::DOORS),
    (54, Fixed::LIGHTING),
    (55, Fixed::DOORS),
    (56, Fixed::LIGHTING),
];

/// Lines before the frames between.
const LENGTH: usize = 900;

pub fn run(tally: &mut Tally) {
    let mut report = Report::default();
    for (seed, fixed) in SCRIPTS {
        let script = lines(fixed, seed);
        states(tally, fixed, seed, &script);
        let programs = programs::right(fixed);
        let found = try_script(&programs, seed, script, &mut report).expect("memory");
        let limit = fixed.limit;
        tally.check(
            found.is_none(),
            &format!("struck lines, seed {seed}, limit {limit}"),
        );
    }
    brought_up(tally, &report);
    control(tally);
    same_program(tally);
}

pub fn lines(fixed: Fixed, seed: u64) -> Vec<Vec<u8>> {
    let script = generate::script_as(fixed, seed, LENGTH);
    let lines = script.strip_suffix(b"\n").unwrap_or(&script);
    let lines: Vec<Vec<u8>> = lines.split(|&byte| byte == b'\n').map(Vec::from).collect();
    between(&mut Random::new(!seed), &lines)
}

/// The comparison had work: lines of each number, in RUN too, and bytes that are not 00h. And it notices each number
/// that leaves something.
fn brought_up(tally: &mut Tally, report: &Report) {
    tally.check(report.right(), "struck lines, the control");
    tally.check(report.choices == 5 * SCRIPTS.len(), "five choices a script");
    for number in WIDER {
        let struck = report.struck[&number];
        let least = if NAMED.contains(&number) { 50 } else { 5 };
        let right = struck.running >= least && struck.times >= struck.lines;
        let what = format!("{number} struck: {} in RUN of {least}", struck.running);
        tally.check(right, &what);
    }
    for number in LEAVING {
        let noticed = report.control[&number].noticed;
        tally.check(noticed > 0, &format!("striking {number} is noticed"));
    }
    let lit = report.seen.lit;
    tally.check(lit >= 10_000, &format!("terminals: {lit} bytes not 00h"));
}

/// A number that comes up in 20 scripts has to be noticed in one of them.
fn control(tally: &mut Tally) {
    for (scripts, noticed, right) in [
        (0, 0, true),
        (19, 0, true),
        (20, 0, false),
        (20, 1, true),
        (300, 0, false),
    ] {
        let what = format!("control: {noticed} of {scripts} noticed");
        tally.check(Count { scripts, noticed }.right() == right, &what);
    }
}

/// What the checks play on prints what the second program prints.
fn same_program(tally: &mut Tally) {
    let script = lines(Fixed::DOORS, 57);
    let printed = programs::right(Fixed::DOORS).trace.print(&script);
    let right = printed.is_ok_and(|printed| printed == fuzz::trace(&fuzz::text(&script)));
    tally.check(right, "the module of the checks is the trace program's");
}

/// Each line, and what it left; nothing was played for a BAD line.
type Course = Vec<(Option<Played>, Agent)>;

fn course<'a>(fixed: Fixed, lines: impl Iterator<Item = &'a Vec<u8>>) -> Course {
    let mut player = Player::power_up_as(fixed);
    lines
        .map(|line| (player.play(line), player.agent.clone()))
        .collect()
}

/// Answer, reply and the whole module stay, k, the clocks and the mark among it; after the last line too, even if that
/// is struck.
fn states(tally: &mut Tally, fixed: Fixed, seed: u64, script: &[Vec<u8>]) {
    let whole = course(fixed, script.iter());
    let random = &mut Random::new(seed);
    for (numbers, one_in) in [(&NAMED[..], 1), (&NAMED, 2), (&NAMED, 8), (&WIDER, 1)] {
        let left: Vec<bool> = whole
            .iter()
            .map(|(played, _)| {
                let answer = played.as_ref().map_or(0, |played| played.answer);
                !numbers.contains(&answer) || !random.one_in(one_in)
            })
            .collect();
        let kept = script.iter().zip(&left).filter(|(_, &left)| left);
        let thinned = course(fixed, kept.map(|(line, _)| line));
        let wanted = whole.iter().zip(&left).filter(|(_, &left)| left);
        let same = thinned.iter().eq(wanted.map(|(played, _)| played));
        let end = thinned.last().map(|(_, agent)| agent) == whole.last().map(|(_, agent)| agent);
        let what = format!("states, seed {seed}, 1 in {one_in} of {numbers:?} struck");
        tally.check(same && end && thinned.len() < whole.len(), &what);
    }
}
