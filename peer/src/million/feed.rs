//! A program is fed a script that may go on behind its last line: does it end then, and what has it printed?

use super::case::After;
use std::io::{self, ErrorKind, Write};
use std::process::{ChildStdin, Command, Stdio};
use std::sync::mpsc::{self, Receiver};
use std::thread;
use std::time::Duration;

/// A program that takes so many lines more has not stopped: they fill every buffer on the way many times over.
pub const TOO_MANY: usize = 100_000;

/// A program that waits so long has not ended.
const TOO_LONG: Duration = Duration::from_secs(60);

pub struct Fed {
    /// If the program failed, that is said after its output.
    pub printed: Vec<u8>,
    /// How it was noticed that it did not stop.
    pub went_on: Option<&'static str>,
}

/// Lines in common, the tail, and lines that come behind it if they are wanted.
pub fn feed(command: &[&str], parts: [&[u8]; 3], after: After) -> io::Result<Fed> {
    let mut child = Command::new(command[0])
        .args(&command[1..])
        .stdin(Stdio::piped())
        .stdout(Stdio::piped())
        .spawn()?;
    let input = child.stdin.take().expect("a pipe");
    let (ended, end) = mpsc::channel();
    thread::scope(|scope| {
        let feeder = scope.spawn(move || give(input, parts, after, &end));
        let output = child.wait_with_output()?;
        // The feeder has gone if nothing is left for it to do.
        let _ = ended.send(());
        let went_on = feeder.join().expect("the feeder does not panic")?;
        let mut printed = output.stdout;
        if !output.status.success() {
            printed.extend(format!("ended with {}\n", output.status).bytes());
        }
        Ok(Fed { printed, went_on })
    })
}

/// The input ends when this returns.
fn give(
    mut input: ChildStdin,
    [shared, tail, behind]: [&[u8]; 3],
    after: After,
    end: &Receiver<()>,
) -> io::Result<Option<&'static str>> {
    let mut taken = taken(input.write_all(shared))? && taken(input.write_all(tail))?;
    if after == After::Lines {
        taken = taken && self::taken(input.write_all(behind))?;
        return Ok(taken.then_some("it went on reading"));
    }
    let waits = after == After::Nothing && end.recv_timeout(TOO_LONG).is_err();
    Ok(waits.then_some("it went on waiting"))
}

/// Not if the program reads no more.
fn taken(outcome: io::Result<()>) -> io::Result<bool> {
    match outcome {
        Ok(()) => Ok(true),
        Err(error) if error.kind() == ErrorKind::BrokenPipe => Ok(false),
        Err(error) => Err(error),
    }
}
