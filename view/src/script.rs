//! The script as it was given: its bytes, its lines, and what each line that is not BAD says by its first character.

use std::ffi::OsStr;
use std::io::Read;
use std::os::unix::ffi::OsStrExt;
use std::path::Path;

/// the most lines that are drawn
pub const MOST_DRAWN: usize = 20_000;

pub struct Script {
    pub title: Vec<u8>,
    pub bytes: Vec<u8>,
}

/// What a line is. Whether it is BAD only the trace says; this is asked of the others.
#[derive(Clone, Copy, PartialEq)]
pub enum Kind {
    Ticks(u64),
    Inputs,
    Frame,
}

impl Script {
    pub fn read(file: Option<&OsStr>) -> Result<Script, String> {
        let mut bytes = Vec::new();
        let Some(file) = file else {
            std::io::stdin().lock().read_to_end(&mut bytes).map_err(|e| format!("standard input cannot be read: {e}"))?;
            return Ok(Script { title: b"standard input".to_vec(), bytes });
        };
        let path = Path::new(file);
        std::fs::File::open(path)
            .and_then(|mut opened| opened.read_to_end(&mut bytes))
            .map_err(|e| format!("{} cannot be read: {e}", path.display()))?;
        let title = path.file_name().unwrap_or(file).as_bytes().to_vec();
        Ok(Script { title, bytes })
    }

    /// The lines. A last one without LF is a line, and nothing follows a last LF.
    pub fn lines(&self) -> impl Iterator<Item = &[u8]> {
        let whole = self.bytes.strip_suffix(b"\n").unwrap_or(&self.bytes);
        let none = self.bytes.is_empty();
        whole.split(|b| *b == b'\n').skip(usize::from(none))
    }

    pub fn drawn(&self) -> impl Iterator<Item = &[u8]> {
        self.lines().take(MOST_DRAWN)
    }
}

/// What a line that is not BAD says.
pub fn kind_of(line: &[u8]) -> Kind {
    match line.first() {
        Some(b'T') => Kind::Ticks(line[2..].iter().fold(0, |n, digit| n * 10 + u64::from(digit - b'0'))),
        Some(b'I') => Kind::Inputs,
        _ => Kind::Frame,
    }
}

impl Kind {
    /// milliseconds that the line takes
    pub fn ticks(self) -> u64 {
        match self {
            Kind::Ticks(n) => n,
            Kind::Inputs => 1,
            Kind::Frame => 0,
        }
    }
}
