//! The proved programs: each is given its input and read line by line.

use std::ffi::OsStr;
use std::io::{BufRead, BufReader, BufWriter, ErrorKind, Write};
use std::path::PathBuf;
use std::process::{Child, Command, Stdio};

pub struct Programs {
    folder: PathBuf,
}

impl Programs {
    pub fn new(folder: &OsStr) -> Programs {
        Programs { folder: PathBuf::from(folder) }
    }

    /// Runs a program. `give` writes its input while `take` gets each line that it prints, without its LF.
    pub fn run(
        &self,
        name: &str,
        give: impl FnOnce(&mut dyn Write) -> std::io::Result<()> + Send,
        mut take: impl FnMut(&[u8]) -> Result<(), String>,
    ) -> Result<(), String> {
        let mut child = Command::new(self.folder.join(name))
            .stdin(Stdio::piped())
            .stdout(Stdio::piped())
            .spawn()
            .map_err(|e| format!("{name} cannot be started: {e}"))?;
        let taken = exchange(&mut child, give, &mut take);
        if taken.is_err() {
            let _ = child.kill();
        }
        let status = child.wait().map_err(|e| format!("{name}: {e}"))?;
        taken.map_err(|why| format!("{name}: {why}"))?;
        if status.success() {
            Ok(())
        } else {
            Err(format!("{name} failed: {status}"))
        }
    }

    /// All that a program prints, as text.
    pub fn printed(&self, name: &str, input: &[u8]) -> Result<String, String> {
        let mut printed = String::new();
        self.run(
            name,
            |to| to.write_all(input),
            |line| {
                printed.push_str(&String::from_utf8_lossy(line));
                printed.push('\n');
                Ok(())
            },
        )?;
        Ok(printed)
    }
}

/// Writes and reads at the same time. A program may end before it has read all: that is its right.
fn exchange(
    child: &mut Child,
    give: impl FnOnce(&mut dyn Write) -> std::io::Result<()> + Send,
    take: &mut dyn FnMut(&[u8]) -> Result<(), String>,
) -> Result<(), String> {
    let (Some(to), Some(from)) = (child.stdin.take(), child.stdout.take()) else {
        return Err("no pipe".into());
    };
    std::thread::scope(|scope| {
        let given = scope.spawn(move || {
            let mut to = BufWriter::with_capacity(1 << 16, to);
            give(&mut to).and_then(|()| to.flush())
        });
        let taken = read_lines(from, take);
        match given.join() {
            Ok(Err(e)) if e.kind() != ErrorKind::BrokenPipe => taken.and(Err(e.to_string())),
            _ => taken,
        }
    })
}

fn read_lines(from: impl std::io::Read, take: &mut dyn FnMut(&[u8]) -> Result<(), String>) -> Result<(), String> {
    let mut from = BufReader::with_capacity(1 << 16, from);
    let mut line = Vec::new();
    loop {
        line.clear();
        if from.read_until(b'\n', &mut line).map_err(|e| e.to_string())? == 0 {
            return Ok(());
        }
        take(line.strip_suffix(b"\n").unwrap_or(&line))?;
    }
}
