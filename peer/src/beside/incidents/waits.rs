//! Inputs that stay open before the byte that decides: nothing is printed until they end, though the lines may be too many.

use super::Compared;
use crate::fuzz::which_frame;
use crate::incident;
use std::io::{self, Write};
use std::process::{Command, Stdio};
use std::thread;
use std::time::Duration;

/// A program that waits so long for more is still waiting.
const PAUSE: Duration = Duration::from_millis(500);

const NAMES: [&str; 5] = [
    "lines-201",
    "lines-201-no-lf",
    "bytes-60000",
    "bytes-60000-in-1-line-no-lf",
    "order-at-the-end",
];

pub fn compare(command: &[&str]) -> io::Result<Vec<Compared>> {
    NAMES.into_iter().map(|name| one(command, name)).collect()
}

fn one(command: &[&str], name: &str) -> io::Result<Compared> {
    let script = incident::edge(name).expect("a named incident");
    let mut child = Command::new(command[0])
        .args(&command[1..])
        .stdin(Stdio::piped())
        .stdout(Stdio::piped())
        .spawn()?;
    let mut input = child.stdin.take().expect("a pipe");
    // A program that reads no more has not waited either.
    let taken = input.write_all(&script).is_ok();
    thread::sleep(PAUSE);
    let waits = taken && child.try_wait()?.is_none();
    drop(input);
    let printed = child.wait_with_output()?.stdout;
    let mut compared = Compared::of(name, &which_frame(&script), &printed);
    let early = (!waits).then(|| "it did not wait".to_string());
    compared.wrong = compared.wrong.or(early);
    Ok(compared)
}
