//! Laws of the which program, on fresh scripts. A line is struck from the text, the script program prints what is left, and
//! the last MODE there tells how it ends.

use super::Tally;
use crate::fuzz::which_frame;
use crate::generate;
use crate::script::{self, Program};

const SEEDS: std::ops::RangeInclusive<u64> = 1..=150;

/// A frame that is answered with another number never matters.
const DECIDING: [&str; 4] = ["0", "12", "16", "22"];

pub fn run(tally: &mut Tally) {
    for seed in SEEDS {
        let text = generate::incident(seed);
        let printed = String::from_utf8(which_frame(&text)).unwrap_or_default();
        let right = holds(&text, &printed);
        tally.check(right, &format!("laws of incident {seed}, {printed:?}"));
    }
}

fn holds(text: &[u8], printed: &str) -> bool {
    let lines: Vec<&[u8]> = text.split_inclusive(|&byte| byte == b'\n').collect();
    let long = lines.len() > 200 || text.len() > 60_000;
    if long {
        return printed == "LONG\n";
    }
    let played = script_printed(text);
    if last_mode(&played) == "F" {
        return printed == "FALLBACK\n";
    }
    let matters = |number: &usize| last_mode(&script_printed(&struck(&lines, *number))) == "F";
    let frames = frame_lines(&lines, &played);
    let mattering: Vec<usize> = frames.into_iter().filter(matters).collect();
    let smallest = mattering.first().map_or("NONE".into(), usize::to_string);
    let answers: Vec<&str> = played.lines().skip(1).map(answer).collect();
    let deciding = |&number: &usize| DECIDING.contains(&answers[number - 1]);
    printed == format!("{smallest}\n") && mattering.iter().all(deciding)
}

/// All lines but this one, as they stand.
fn struck(lines: &[&[u8]], number: usize) -> Vec<u8> {
    let (before, behind) = (&lines[..number - 1], &lines[number..]);
    [before.concat(), behind.concat()].concat()
}

fn script_printed(text: &[u8]) -> String {
    let mut output = Vec::new();
    script::run(Program::Script, text, &mut output).expect("memory takes any text");
    String::from_utf8(output).unwrap_or_default()
}

/// That of the last line that is not BAD; F if there is none.
fn last_mode(printed: &str) -> &str {
    let modes = printed.lines().skip(1).map(|line| line.split(' ').nth(2));
    modes.flatten().last().unwrap_or("F")
}

/// The second field of a line.
fn answer(line: &str) -> &str {
    line.split(' ').nth(1).unwrap_or("")
}

/// The numbers of the lines that begin with a digit and are not BAD.
fn frame_lines(lines: &[&[u8]], printed: &str) -> Vec<usize> {
    let printed = printed.lines().skip(1).map(answer);
    let all = (1..).zip(lines.iter().zip(printed));
    let frames = all.filter(|(_, (line, answer))| line[0].is_ascii_digit() && *answer != "BAD");
    frames.map(|(number, _)| number).collect()
}
