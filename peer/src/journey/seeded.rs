//! A seeded journey with every kind of stretch. Between quiet times, noise, plateaus and slopes the same storm comes three
//! times. It has its first lines again after its thousandth, so that the largest sum comes often, overlapping and apart.
//! Before the first storm and after the second comes one that is less by one.

use crate::generate::random::Random;
use crate::worst::STRETCH;

/// The lines of a storm that come again.
const AGAIN: usize = 40;

/// The quiet lines before and after a storm, so that no stretch with some of it is worse than the whole.
const CALM: usize = 150;

/// The storms in their order.
const STORMS: [Storm; 5] = [
    Storm::Lesser,
    Storm::Whole,
    Storm::Whole,
    Storm::Lesser,
    Storm::Whole,
];

#[derive(Clone, Copy, PartialEq, Eq)]
enum Storm {
    Whole,
    Lesser,
}

/// Only a journey of so many lines has room for storms.
const ROOM: usize = 10_000;

/// So many lines.
pub fn journey(seed: u64, lines: usize) -> Vec<u8> {
    let random = &mut Random::new(seed);
    if lines < ROOM {
        return super::text(&weather(random, lines));
    }
    let storm = storm(random);
    let room = lines - STORMS.len() * (storm.len() + 2 * CALM);
    let mut counts = Vec::new();
    for kind in STORMS {
        counts.extend(weather(random, room / (STORMS.len() + 1)));
        let mut storm = storm.clone();
        if kind == Storm::Lesser {
            storm[STRETCH / 2] -= 1;
        }
        counts.extend(calm(random));
        counts.extend(storm);
        counts.extend(calm(random));
    }
    counts.extend(weather(random, lines - counts.len()));
    super::text(&counts)
}

/// Any thousand of its lines in a row have the same sum.
fn storm(random: &mut Random) -> Vec<u8> {
    let counts: Vec<u8> = (0..STRETCH).map(|_| high(random)).collect();
    [&counts[..], &counts[..AGAIN]].concat()
}

fn calm(random: &mut Random) -> Vec<u8> {
    (0..CALM).map(|_| random.below(3) as u8).collect()
}

fn high(random: &mut Random) -> u8 {
    220 + random.below(36) as u8
}

/// So many lines without a storm.
fn weather(random: &mut Random, lines: usize) -> Vec<u8> {
    let mut counts: Vec<u8> = Vec::new();
    while counts.len() < lines {
        let length = 1 + random.below(300);
        let (start, end) = (random.byte(), random.byte());
        match random.below(6) {
            0 => counts.extend(vec![start; length]),
            1 => counts.extend((0..length).map(|place| slope(start, end, place, length))),
            2 => counts.extend((0..length).map(|_| random.byte())),
            3 => repeat(random, &mut counts, length),
            _ => counts.extend((0..length).map(|_| random.pick(&[0, 0, 0, 1, 2, 9, 10]))),
        }
    }
    counts.truncate(lines);
    counts
}

fn slope(start: u8, end: u8, place: usize, length: usize) -> u8 {
    let (start, end) = (start as i64, end as i64);
    (start + (end - start) * place as i64 / length as i64) as u8
}

/// Some lines from before once more.
fn repeat(random: &mut Random, counts: &mut Vec<u8>, length: usize) {
    if counts.len() > length {
        let from = random.below(counts.len() - length);
        counts.extend_from_within(from..from + length);
    }
}
