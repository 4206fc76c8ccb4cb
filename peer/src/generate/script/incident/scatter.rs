//! Lines without effect on the mode, put in anywhere: BAD ones, frames on no port, damaged ones, an empty body.

use super::super::lines::{NO_TEXT, WRONG};
use crate::generate::random::Random;
use crate::script::{parse, Line};

/// None, a few or many.
pub fn among(random: &mut Random, lines: &mut Vec<Vec<u8>>) {
    let most = random.pick(&[0, 0, 1, 3, 10, 40]);
    for _ in 0..random.below(most + 1) {
        add(random, lines);
    }
}

/// One more line, anywhere.
pub fn add(random: &mut Random, lines: &mut Vec<Vec<u8>>) {
    let line = idle(random, lines);
    let place = random.below(lines.len() + 1);
    lines.insert(place, line);
}

fn idle(random: &mut Random, lines: &[Vec<u8>]) -> Vec<u8> {
    let frame = match lines {
        [] => None,
        _ => Some(&lines[random.below(lines.len())]).filter(|line| is_frame(line)),
    };
    match (frame, random.below(8)) {
        (Some(frame), 0..=2) => on_no_port(random, frame),
        (Some(frame), 3 | 4) => damaged(random, frame),
        (_, 5) => b"1 ".to_vec(),
        (_, 6) => random.pick(&NO_TEXT).to_vec(),
        _ => random.pick(&WRONG).to_vec(),
    }
}

fn is_frame(line: &[u8]) -> bool {
    matches!(parse(line), Some(Line::Frame { .. }))
}

fn on_no_port(random: &mut Random, frame: &[u8]) -> Vec<u8> {
    let port = random.pick(b"03456789");
    [&[port], &frame[1..]].concat()
}

/// One digit of the body is another: the FCS does not fit, or a check before it fails.
fn damaged(random: &mut Random, frame: &[u8]) -> Vec<u8> {
    let mut line = frame.to_vec();
    if line.len() > 2 {
        let place = 2 + random.below(line.len() - 2);
        line[place] = match line[place] {
            b'0' => b'8',
            _ => b'0',
        };
    }
    line
}
