//! Lines for the frame program: frames of every kind by their fields, bodies, wrong lines, and the
//! other lines of a list.

use super::draft::Draft;
use super::line::recase;
use super::random::Random;
use super::sample::{self, Sample};
use super::{body_reading, frame_line_faults as faults, frame_list_lines, frame_reading};
use crate::body;
use crate::cases;
use crate::frame::{com, Frame};
use crate::hex;
use crate::script::LINE_MAX;
use crate::spelling::{spell_frame, Kind, KINDS};

const DATLS: [u8; 8] = [0, 1, 2, 8, 64, 253, 254, 255];

/// Of tables 7 and 8, and their neighbours.
const COMS: [u8; 14] = [
    0x00, 0x01, 0x02, 0x03, 0x06, 0x07, 0x08, 0x54, 0x55, 0x6F, 0x70, 0xA9, 0xAA, 0xFF,
];

/// The list is cut if `count` is smaller than its fixed part.
pub fn frame_lines(seed: u64, count: usize) -> Vec<u8> {
    let random = &mut Random::new(seed);
    let mut lines = fixed(random);
    while lines.len() < count {
        any(random, &mut lines);
    }
    lines.truncate(count);
    let mut text = lines.join(&b'\n');
    text.push(b'\n');
    text
}

fn fixed(random: &mut Random) -> Vec<Vec<u8>> {
    let mut lines: Vec<String> = Vec::new();
    for kind in 0..cases::KINDS {
        lines.extend(DATLS.map(|datl| spelled(&sample::frame(random, kind, datl))));
        lines.extend(addresses(random, kind));
    }
    for kind in &KINDS {
        lines.extend(["0", "F", "7E", "7d", "80"].map(|digits| filled(kind, digits, 2)));
        lines.extend(data_lengths(kind));
    }
    lines.extend(coms(random));
    lines.extend(bodies(random));
    let mut lines: Vec<Vec<u8>> = lines.into_iter().map(String::into_bytes).collect();
    lines.extend(faults::fixed(random));
    lines.extend(frame_list_lines::fixed(random));
    lines
}

pub fn spelled(sample: &Sample) -> String {
    spell_frame(sample.address, &sample.frame, &sample.data)
}

/// Every address at the edge of the reserved ones, or some of both sorts.
fn addresses(random: &mut Random, kind: u8) -> Vec<String> {
    let addresses = sample::addresses_for(random, kind);
    let with = |address| {
        let sample = sample::frame(random, kind, 3);
        spelled(&Sample { address, ..sample })
    };
    addresses.into_iter().map(with).collect()
}

/// Each field, and the data bytes, full of the same digits; to an address that is free.
pub fn filled(kind: &Kind, digits: &str, bytes: usize) -> String {
    let full = |count| digits.chars().cycle().take(count).collect::<String>();
    let mut text = kind.name.to_string();
    for field in kind.fields {
        let value = match field.name {
            "to" => "21".to_string(),
            _ => full(field.digits),
        };
        text += &format!(" {}={value}", field.name);
    }
    if kind.with_data {
        text += &format!(" data={}", full(2 * bytes));
    }
    text
}

/// From none to as many as a line of 1,200 characters has room for; the next is too long.
fn data_lengths(kind: &Kind) -> Vec<String> {
    if !kind.with_data {
        return Vec::new();
    }
    let most = (LINE_MAX - filled(kind, "0", 0).len()) / 2;
    [0, 1, 253, 254, 255, 256, 257, 300, most - 1, most, most + 1]
        .map(|bytes| filled(kind, "70", bytes))
        .to_vec()
}

fn coms(random: &mut Random) -> Vec<String> {
    let mut lines = Vec::new();
    for value in COMS {
        for (kind, datl) in [(0x05, 0), (0x05, 1), (0x07, 0), (0x07, 1)] {
            let mut sample = sample::frame(random, kind, datl);
            if let Frame::SafeResponse { com, .. } | Frame::PlainResponse { com, .. } =
                &mut sample.frame
            {
                *com = value;
            }
            lines.push(spelled(&sample));
        }
    }
    for datl in [254, 255] {
        let mut sample = sample::frame(random, 0x05, datl);
        if let Frame::SafeResponse { com, .. } = &mut sample.frame {
            *com = com::SAFE_TO_SYNC;
        }
        lines.push(spelled(&sample));
    }
    lines
}

/// A part of the bodies of the case programs, in turn good and damaged.
fn bodies(random: &mut Random) -> Vec<String> {
    let frames = frame_reading::fixed(random);
    let others = body_reading::fixed(random);
    let frames = frames.iter().step_by(2);
    let others = others.iter().step_by(4);
    frames.chain(others).map(|case| of_case(case)).collect()
}

/// A case that reads a body begins with its operation, two digits.
pub fn of_case(case: &str) -> String {
    format!("body {}", &case[2..])
}

fn any(random: &mut Random, lines: &mut Vec<Vec<u8>>) {
    match random.below(14) {
        0..=2 => {
            let line = some_frame(random);
            lines.push(recased(random, &line).into_bytes());
        }
        3..=5 => {
            let case = frame_reading::any(random);
            lines.push(recased(random, &of_case(&case)).into_bytes());
        }
        6 | 7 => lines.extend(there_and_back(random).map(String::into_bytes)),
        8 => {
            let line = some_frame(random);
            lines.push(faults::spoilt(random, line.as_bytes()));
        }
        9 => {
            let [_, line] = there_and_back(random);
            lines.push(faults::spoilt(random, line.as_bytes()));
        }
        _ => lines.push(frame_list_lines::any(random)),
    }
}

/// Any kind; now and then to a reserved address.
pub fn some_frame(random: &mut Random) -> String {
    let kind = random.below(cases::KINDS as usize) as u8;
    let datl = sample::datl(random);
    let mut sample = sample::frame(random, kind, datl);
    if random.one_in(12) {
        sample.address = sample::reserved_address(random);
    }
    spelled(&sample)
}

/// A frame and its own body.
pub fn there_and_back(random: &mut Random) -> [String; 2] {
    let kind = random.below(cases::KINDS as usize) as u8;
    let datl = sample::datl(random);
    let sample = sample::frame(random, kind, datl);
    let draft = Draft::of(&sample);
    let body = body::enclose(draft.address, &draft.application());
    [spelled(&sample), format!("body {}", hex::encode(&body))]
}

/// Now and then digits in small letters; names stay.
fn recased(random: &mut Random, line: &str) -> String {
    let words: Vec<String> = line
        .split(' ')
        .map(|word| match word.split_once('=') {
            Some((name, digits)) => format!("{name}={}", recase(random, digits.to_string())),
            None => word.to_string(),
        })
        .collect();
    match line.strip_prefix("body ") {
        Some(digits) => format!("body {}", recase(random, digits.to_string())),
        None => words.join(" "),
    }
}
