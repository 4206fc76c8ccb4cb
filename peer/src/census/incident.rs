//! What an incident and what is printed of it bring up: the outcome, how long the script is, what kind of frame mattered
//! and where it stood.

use crate::frame::{self, Frame};
use crate::module::registers::{CNF_REP, HOLD, OUT_REP, RELEASE, TCYC};
use crate::script::{Line, Player};
use crate::which::{mattering, parsed, BYTES_MAX, LINES_MAX};

/// Each thing once.
pub fn of_incident(script: &[u8], printed: &[u8]) -> Vec<String> {
    let printed = String::from_utf8_lossy(printed);
    let lines = lines(script);
    let mut came: Vec<String> = size(script, lines.len());
    match printed.trim_end() {
        "LONG" => came.push(long(script.len(), lines.len())),
        "FALLBACK" => came.push("FALLBACK".to_string()),
        "NONE" => came.push("NONE".to_string()),
        number => match number.parse() {
            Ok(number) => came.extend(of_number(&parsed(&lines), number)),
            Err(_) => came.push("printed something else".to_string()),
        },
    }
    came
}

fn lines(script: &[u8]) -> Vec<Vec<u8>> {
    let lines = script.split_inclusive(|&byte| byte == b'\n');
    let without_lf = |line: &[u8]| line.strip_suffix(b"\n").unwrap_or(line).to_vec();
    lines.map(without_lf).collect()
}

/// Whatever is printed.
fn size(script: &[u8], lines: usize) -> Vec<String> {
    let lacks_lf = script.last().is_some_and(|&last| last != b'\n');
    let bytes = script.len();
    [
        ("without lines", script.is_empty()),
        ("last line without LF", lacks_lf),
        ("of 199 lines", lines == LINES_MAX - 1),
        ("of 200 lines", lines == LINES_MAX),
        ("of 201 lines", lines == LINES_MAX + 1),
        ("of 59,999 bytes", bytes == BYTES_MAX - 1),
        ("of 60,000 bytes", bytes == BYTES_MAX),
        ("of 60,001 bytes", bytes == BYTES_MAX + 1),
    ]
    .into_iter()
    .filter(|(_, came)| *came)
    .map(|(what, _)| what.to_string())
    .collect()
}

fn long(bytes: usize, lines: usize) -> String {
    match (lines > LINES_MAX, bytes > BYTES_MAX) {
        (true, false) => "LONG by lines",
        (false, true) => "LONG by bytes",
        (true, true) => "LONG by both",
        (false, false) => "LONG by nothing",
    }
    .to_string()
}

fn of_number(lines: &[Option<Line>], number: usize) -> Vec<String> {
    let place = match number {
        1 => "first line",
        _ if number == lines.len() => "last line",
        _ => "between",
    };
    let mut came = vec![
        "number".to_string(),
        format!("number: {place}"),
        format!("number: {}", kind(lines, number)),
    ];
    if mattering(lines).len() > 1 {
        came.push("number: smallest of several".to_string());
    }
    if lines[..number - 1].contains(&None) {
        came.push("number: behind BAD lines".to_string());
    }
    if number > 99 {
        came.push("number: of three digits".to_string());
    }
    came
}

/// What frame stands there, and what became of it.
fn kind(lines: &[Option<Line>], number: usize) -> String {
    let mut player = Player::power_up();
    for line in lines[..number - 1].iter().flatten() {
        player.play_line(line.clone());
    }
    let Some(line @ Line::Frame { body, .. }) = &lines[number - 1] else {
        return "no frame".to_string();
    };
    let answer = player.play_line(line.clone()).answer;
    let name = match frame::read(body) {
        Ok(received) => name(&received.frame, &received.data),
        Err(_) => "another frame",
    };
    match answer {
        0 => name.to_string(),
        _ => format!("{name}, refused with {answer}"),
    }
}

fn name(frame: &Frame, data: &[u8]) -> &'static str {
    match frame {
        Frame::Sync { .. } => "sync",
        Frame::SafeRead { .. } => "read",
        Frame::SafeWrite { span, .. } => match span.add {
            OUT_REP if data == [RELEASE] => "release",
            OUT_REP if data == [HOLD] => "order of fallback",
            TCYC => "write of TCYC",
            CNF_REP..=0x1B => "write of CNF_REP or CNF_CYC",
            0x80..=0xBF => "output write",
            _ => "another write",
        },
        Frame::TidAssignment { .. } => "TID assignment",
        Frame::SidAssignmentSil2(_) => "SID assignment",
        _ => "another frame",
    }
}
