//! The other program: a command that reads a script and prints what came of it.

use std::io::{self, ErrorKind, Write};
use std::process::{Command, Stdio};
use std::thread;

pub struct Other {
    words: Vec<String>,
}

impl Other {
    /// At least one word, the program.
    pub fn new(command: &[&str]) -> Other {
        Other {
            words: command.iter().map(|word| word.to_string()).collect(),
        }
    }

    /// What it printed; if the program failed, that is said after its output.
    pub fn print(&self, script: &[u8]) -> io::Result<Vec<u8>> {
        let mut child = Command::new(&self.words[0])
            .args(&self.words[1..])
            .stdin(Stdio::piped())
            .stdout(Stdio::piped())
            .spawn()?;
        let mut input = child.stdin.take().expect("a pipe");
        let output = thread::scope(|scope| {
            scope.spawn(move || ignore_closed(input.write_all(script)));
            child.wait_with_output()
        })?;
        let mut printed = output.stdout;
        if !output.status.success() {
            printed.extend(format!("ended with {}\n", output.status).bytes());
        }
        Ok(printed)
    }
}

/// A program that stops reading shows this in its output.
fn ignore_closed(outcome: io::Result<()>) {
    if let Err(error) = outcome {
        assert_eq!(error.kind(), ErrorKind::BrokenPipe, "{error}");
    }
}
