//! Incidents given in pieces with pauses between them: a piece that has come is not the whole.

use super::super::pieces::print;
use super::Compared;
use crate::fuzz::which_frame;
use crate::incident;
use std::io;
use std::time::Duration;

/// Between two pieces.
const PAUSE: Duration = Duration::from_millis(30);

/// Between many.
const SHORT_PAUSE: Duration = Duration::from_micros(20);

/// In two pieces, cut where a block, a line or the script may end.
const IN_TWO: [(&str, &[usize]); 7] = [
    ("sync-at-limit", &[0, 1, 49, 50, 300]),
    ("lines-200-last-matters-no-lf", &[10]),
    ("bytes-60000", &[4_095, 4_096, 4_097, 59_999]),
    ("bytes-60000-lines-200", &[4_096, 8_192, 59_000]),
    ("bytes-60001-lines-200", &[4_096, 59_999, 60_000]),
    ("bytes-60000-in-1-line", &[1, 59_999]),
    ("bytes-60001-in-1-line-no-lf", &[59_999, 60_000]),
];

/// In pieces of so many bytes.
const IN_MANY: [(&str, usize); 8] = [
    ("sync-at-limit", 1),
    ("refused-22", 1),
    ("inputs-tick", 1),
    ("number-behind-60-frames", 7),
    ("last-line-no-lf", 2),
    ("bytes-60000-lines-200", 4_096),
    ("bytes-60001-no-lf", 1_000),
    ("bytes-66036", 4_096),
];

pub fn compare(command: &[&str]) -> io::Result<Vec<Compared>> {
    let mut compared = Vec::new();
    for (name, cuts) in IN_TWO {
        let script = script(name);
        for &cut in cuts {
            let (first, second) = script.split_at(cut);
            let printed = print(command, &[first, second], PAUSE)?;
            let name = format!("{name}, cut at byte {cut}");
            compared.push(Compared::of(&name, &which_frame(&script), &printed));
        }
    }
    for (name, size) in IN_MANY {
        let script = script(name);
        let pieces: Vec<&[u8]> = script.chunks(size).collect();
        let printed = print(command, &pieces, SHORT_PAUSE)?;
        let name = format!("{name}, in pieces of {size} bytes");
        compared.push(Compared::of(&name, &which_frame(&script), &printed));
    }
    Ok(compared)
}

fn script(name: &str) -> Vec<u8> {
    incident::edge(name).expect("a named incident")
}
