//! Bodies to read: good ones of every length class, and each kind of damage.

use super::random::Random;
use super::{damage, line, sample};
use crate::body;

pub fn fixed(random: &mut Random) -> Vec<String> {
    let mut bodies = Vec::new();
    bodies.extend(unstuffed_lengths(random));
    bodies.extend(received_lengths(random));
    bodies.extend(addresses(random));
    bodies.extend(wrong_stuffing(random));
    bodies.extend(wrong_fcs(random));
    bodies.extend(cut_and_longer(random));
    bodies.extend(two_faults(random));
    bodies.iter().map(|body| line::read(body)).collect()
}

/// Application data of these lengths, from unstuffed 3 to unstuffed 273 and beyond.
fn unstuffed_lengths(random: &mut Random) -> Vec<Vec<u8>> {
    let mut bodies = Vec::new();
    for length in [0, 1, 2, 3, 4, 5, 6, 7, 20, 100, 267, 268, 269, 270, 271] {
        for stuffed in [0, 1, length / 2, length] {
            let application = sample::bytes_with_stuffed(random, length, stuffed.min(length));
            bodies.push(body::enclose(sample::free_address(random), &application));
        }
    }
    bodies
}

/// Bodies of exact lengths on the line, each with several unstuffed lengths.
fn received_lengths(random: &mut Random) -> Vec<Vec<u8>> {
    let mut bodies = vec![Vec::new()];
    for length in 1..=6 {
        bodies.push(sample::bytes(random, length));
    }
    // Received length, then the lengths of the application data.
    let wanted: [(usize, &[usize]); 8] = [
        (6, &[2, 3]),
        (7, &[2, 3, 4]),
        (8, &[2, 3, 4, 5]),
        (541, &[269, 270, 538]),
        (542, &[269, 270, 539]),
        (543, &[269, 269, 269, 269, 270, 271, 400, 540]),
        (544, &[270, 271, 541]),
        (545, &[271, 400, 542]),
    ];
    for (received, lengths) in wanted {
        for &length in lengths {
            let (address, application) = sample::of_length(random, length, received);
            bodies.push(body::enclose(address, &application));
        }
    }
    bodies
}

fn addresses(random: &mut Random) -> Vec<Vec<u8>> {
    (0..=0xFF)
        .map(|address| {
            let length = 4 + random.below(6);
            body::enclose(address, &sample::bytes(random, length))
        })
        .collect()
}

fn wrong_stuffing(random: &mut Random) -> Vec<Vec<u8>> {
    let mut bodies = Vec::new();
    let plain = body::enclose(0x21, &sample::bytes_with_stuffed(random, 5, 0));
    let mixed = body::enclose(0xF0, &sample::bytes_with_stuffed(random, 6, 3));
    for body in [&plain, &mixed] {
        // Place 0 is the address, which is not stuffed and never wrong in this way.
        for place in 0..body.len() {
            bodies.push(damage::replaced(body, place, 0x7E));
            bodies.push(damage::replaced(body, place, 0x7D));
        }
        for place in 1..=body.len() {
            bodies.push(damage::inserted(body, place, &[0x7E]));
            bodies.push(damage::inserted(body, place, &[0x7D]));
        }
        for code in damage::WRONG_CODES {
            let place = 1 + random.below(body.len());
            bodies.push(damage::inserted(body, place, &[0x7D, code]));
        }
        bodies.push(damage::longer(body, 0x7D));
    }
    bodies.extend(cut_pair(random));
    for place in [1, 100, 269, 271] {
        let long = body::enclose(0x05, &sample::bytes_with_stuffed(random, 269, 0));
        bodies.push(damage::replaced(&long, place, 0x7E));
        bodies.push(damage::replaced(&long, place, 0x7D));
    }
    bodies
}

/// A last pair that lost its code: the escape comes last.
fn cut_pair(random: &mut Random) -> Vec<Vec<u8>> {
    let mut bodies = Vec::new();
    while bodies.len() < 6 {
        let body = body::enclose(sample::free_address(random), &sample::bytes(random, 6));
        if body[body.len() - 2] == 0x7D {
            bodies.push(body[..body.len() - 1].to_vec());
            bodies.push(body);
        }
    }
    bodies
}

fn wrong_fcs(random: &mut Random) -> Vec<Vec<u8>> {
    let mut bodies = Vec::new();
    for length in [4, 4, 30, 269] {
        let application = sample::bytes(random, length);
        let address = sample::free_address(random);
        bodies.extend(damage::fcs_bits(address, &application));
        bodies.extend(damage::other_fcs(address, &application));
    }
    let application = sample::bytes_with_stuffed(random, 4, 1);
    bodies.extend(damage::covered_bits(0x8F, &application));
    bodies
}

fn cut_and_longer(random: &mut Random) -> Vec<Vec<u8>> {
    let mut bodies = Vec::new();
    let whole = body::enclose(0x90, &sample::bytes(random, 12));
    for length in 0..whole.len() {
        bodies.push(whole[..length].to_vec());
    }
    for length in [4, 5, 60, 268, 269] {
        let body = body::enclose(0x01, &sample::bytes(random, length));
        bodies.push(body[..body.len() - 1].to_vec());
        bodies.push(body[1..].to_vec());
        for byte in [0x00, 0x5E, 0x7D, 0x7E, 0xFF] {
            bodies.push(damage::longer(&body, byte));
        }
    }
    bodies
}

/// Two faults at once show which is asked first.
fn two_faults(random: &mut Random) -> Vec<Vec<u8>> {
    let mut bodies = Vec::new();
    for _ in 0..6 {
        let free = sample::free_address(random);
        let reserved = sample::reserved_address(random);
        let short = sample::bytes_with_stuffed(random, 3, 3);
        let good = sample::bytes(random, 9);
        let huge = sample::bytes_with_stuffed(random, 280, 0);
        // 1 before 2, on both sides.
        bodies.push(damage::replaced(&sample::bytes(random, 6), 3, 0x7E));
        bodies.push(damage::replaced(&sample::bytes(random, 544), 300, 0x7E));
        // 2 before 3, on both sides.
        bodies.push(damage::longer(&body::enclose(free, &short), 0x7D));
        bodies.push(damage::longer(&body::enclose(free, &huge), 0x7E));
        // 3 before 4, 3 before 5, 4 before 5.
        bodies.push(body::enclose_with(free, &short, [0x12, 0x34]));
        bodies.push(body::enclose(reserved, &short));
        bodies.push(body::enclose(reserved, &huge));
        bodies.push(body::enclose_with(reserved, &good, [0x12, 0x34]));
        bodies.push(damage::longer(&body::enclose(reserved, &good), 0x7E));
    }
    bodies
}

pub fn any(random: &mut Random) -> String {
    let length = match random.below(12) {
        0 => random.below(4),
        1 => 4 + random.below(300),
        _ => 4 + random.below(24),
    };
    let address = match random.one_in(8) {
        true => sample::reserved_address(random),
        false => sample::free_address(random),
    };
    let body = body::enclose(address, &sample::bytes(random, length));
    line::read(&match random.below(5) {
        0 | 1 => damage::any(random, &body),
        _ => body,
    })
}
