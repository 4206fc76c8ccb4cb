//! The programs that play scripts, a trace program and a script program, and how often they ran.

use super::printed::Printed;
use super::question::Ways;
use crate::fuzz;
use crate::script::Program;
use std::cell::Cell;
use std::io;

type Play<'a> = dyn Fn(&[u8]) -> io::Result<Vec<u8>> + 'a;

/// From a script to what is printed of it.
pub struct Printer<'a> {
    play: Box<Play<'a>>,
    runs: Cell<usize>,
}

pub struct Programs<'a> {
    pub trace: Printer<'a>,
    pub script: Printer<'a>,
}

/// What both printed of the same script.
pub struct Whole {
    pub trace: Printed,
    pub script: Printed,
}

impl<'a> Printer<'a> {
    pub fn new(play: impl Fn(&[u8]) -> io::Result<Vec<u8>> + 'a) -> Printer<'a> {
        Printer {
            play: Box::new(play),
            runs: Cell::new(0),
        }
    }

    pub fn print<L: AsRef<[u8]>>(&self, lines: &[L]) -> io::Result<Vec<u8>> {
        self.runs.set(self.runs.get() + 1);
        (self.play)(&fuzz::text(lines))
    }
}

impl<'a> Programs<'a> {
    pub fn of(&self, program: Program) -> &Printer<'a> {
        match program {
            Program::Trace => &self.trace,
            Program::Script => &self.script,
        }
    }

    pub fn runs(&self) -> usize {
        self.trace.runs.get() + self.script.runs.get()
    }

    /// Each prints one line for each, and they agree.
    pub fn play<L: AsRef<[u8]>>(&self, lines: &[L]) -> io::Result<Result<Whole, Ways>> {
        let trace = Printed::read(&self.trace.print(lines)?, lines.len());
        let script = Printed::read(&self.script.print(lines)?, lines.len());
        Ok(match (trace, script) {
            (Ok(trace), Ok(script)) => Whole { trace, script }.agreed(),
            (Err(wrong), _) => Err(misprinted("trace", lines.len(), wrong)),
            (_, Err(wrong)) => Err(misprinted("script", lines.len(), wrong)),
        })
    }
}

impl Whole {
    pub fn of(&self, program: Program) -> &Printed {
        match program {
            Program::Trace => &self.trace,
            Program::Script => &self.script,
        }
    }

    /// Of each line the trace begins with the script program's text.
    fn agreed(self) -> Result<Whole, Ways> {
        let texts = self.trace.texts.iter().zip(&self.script.texts);
        let mut numbered = (1..).zip(texts);
        match numbered.find(|(_, (traced, text))| !begins(traced, text)) {
            Some((number, (traced, text))) => Err([
                ("the trace program prints", traced),
                ("the script program prints", text),
            ]
            .map(|(what, text)| {
                let text = String::from_utf8_lossy(text);
                (what.to_string(), format!("{number} {text}"))
            })),
            None => Ok(self),
        }
    }
}

/// Reply and registers come after the script program's text, and nothing after BAD.
fn begins(traced: &[u8], text: &[u8]) -> bool {
    match traced.strip_prefix(text) {
        Some([]) => text == b"BAD",
        Some(behind) => behind[0] == b' ' && text != b"BAD",
        None => false,
    }
}

fn misprinted(name: &str, count: usize, wrong: Option<Vec<u8>>) -> Ways {
    let wanted = format!("a header and {count} numbered lines");
    let given = match wrong {
        Some(line) => String::from_utf8_lossy(&line).trim_end().to_string(),
        None => "fewer lines".to_string(),
    };
    [
        (format!("the {name} program has to print"), wanted),
        ("it prints".to_string(), given),
    ]
}
