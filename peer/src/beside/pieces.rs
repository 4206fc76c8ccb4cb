//! A journey given in two pieces with a pause between them: a piece that has come is not the whole.

use super::Compared;
use crate::fuzz::worst_thousand;
use std::io::{self, ErrorKind, Write};
use std::process::{Command, Stdio};
use std::thread;
use std::time::Duration;

const PAUSE: Duration = Duration::from_millis(50);

/// Where it is cut, in bytes: before all, within a line, before and after an LF, about the last line.
const CUTS: [usize; 8] = [0, 1, 3, 4, 3_998, 4_799, 4_800, 4_803];

pub fn compare(command: &[&str]) -> io::Result<Vec<Compared>> {
    let journey = [b"123\n".repeat(1_200), b"255\n".to_vec()].concat();
    let own = worst_thousand(&journey);
    let compare = |cut: usize| {
        let (first, second) = journey.split_at(cut);
        let printed = print(command, &[first, second], PAUSE)?;
        Ok(Compared::of(&format!("cut at byte {cut}"), &own, &printed))
    };
    CUTS.into_iter().map(compare).collect()
}

/// What it printed, with a pause after each piece; if the program failed, that is said after its output.
pub fn print(command: &[&str], pieces: &[&[u8]], pause: Duration) -> io::Result<Vec<u8>> {
    let mut child = Command::new(command[0])
        .args(&command[1..])
        .stdin(Stdio::piped())
        .stdout(Stdio::piped())
        .spawn()?;
    let mut input = child.stdin.take().expect("a pipe");
    for piece in pieces {
        match input.write_all(piece) {
            // It shows in what the program prints.
            Err(error) if error.kind() == ErrorKind::BrokenPipe => break,
            outcome => outcome?,
        }
        thread::sleep(pause);
    }
    drop(input);
    let output = child.wait_with_output()?;
    let mut printed = output.stdout;
    if !output.status.success() {
        printed.extend(format!("ended with {}\n", output.status).bytes());
    }
    Ok(printed)
}
