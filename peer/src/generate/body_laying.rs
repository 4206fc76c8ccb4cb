//! Bodies to lay down: lengths and rooms at and beside their limits, and every address.

use super::random::Random;
use super::{line, sample};

const LENGTHS: [usize; 9] = [0, 3, 4, 5, 268, 269, 270, 300, 596];

pub fn fixed(random: &mut Random) -> Vec<String> {
    let mut lines = Vec::new();
    lines.extend(lengths_and_rooms(random));
    lines.extend(addresses(random));
    lines.extend(fully_stuffed(random));
    lines.extend(two_faults(random));
    lines
}

fn lengths_and_rooms(random: &mut Random) -> Vec<String> {
    let mut lines = Vec::new();
    for length in LENGTHS {
        for stuffed in [0, length / 3, length] {
            let application = sample::bytes_with_stuffed(random, length, stuffed);
            let address = sample::free_address(random);
            let exact = line::length_laid(address, &application).min(599);
            for room in [exact - 1, exact, exact + 1, 0, 600] {
                lines.push(line::lay(room, address, &application));
            }
        }
    }
    let application = sample::bytes(random, 7);
    for room in 0..line::length_laid(0x42, &application) + 4 {
        lines.push(line::lay(room, 0x42, &application));
    }
    lines
}

fn addresses(random: &mut Random) -> Vec<String> {
    (0..=0xFF)
        .map(|address| {
            let length = 4 + random.below(6);
            let application = sample::bytes(random, length);
            line::lay(
                line::length_laid(address, &application),
                address,
                &application,
            )
        })
        .collect()
}

/// The longest there is: 545 bytes with both flags.
fn fully_stuffed(random: &mut Random) -> Vec<String> {
    let (address, application) = sample::of_length(random, 269, 543);
    [0, 544, 545, 546, 600]
        .map(|room| line::lay(room, address, &application))
        .to_vec()
}

/// Two faults at once show which is asked first.
fn two_faults(random: &mut Random) -> Vec<String> {
    let mut lines = Vec::new();
    for length in [0, 3, 4, 9, 269, 270] {
        let application = sample::bytes(random, length);
        let reserved = sample::reserved_address(random);
        let free = sample::free_address(random);
        for room in [0, 4, 600] {
            lines.push(line::lay(room, reserved, &application));
            lines.push(line::lay(room, free, &application));
        }
    }
    lines
}

pub fn any(random: &mut Random) -> String {
    let length = match random.below(12) {
        0 => random.below(4),
        1 => random.pick(&LENGTHS),
        2 => random.below(280),
        _ => 4 + random.below(24),
    };
    let address = match random.one_in(10) {
        true => sample::reserved_address(random),
        false => sample::free_address(random),
    };
    let application = sample::bytes(random, length);
    let exact = line::length_laid(address, &application);
    line::lay(line::some_room(random, exact), address, &application)
}
