//! What a run of fresh scripts came to, in words.

use super::{Difference, Ending, Kind, Report};
use std::fmt;

/// So many lines of a journey that are the same are not shown one by one.
const SHOWN_MAX: usize = 5;

impl fmt::Display for Report {
    fn fmt(&self, output: &mut fmt::Formatter) -> fmt::Result {
        if let Some(difference) = &self.difference {
            write!(output, "{difference}")?;
        }
        let verdict = match self.difference {
            None => "no difference",
            Some(_) => "DIFFERENT",
        };
        let noun = match self.kind {
            Kind::Scripts => "scripts",
            Kind::Journeys => "journeys",
        };
        let (scripts, lines) = (self.scripts, self.lines);
        writeln!(output, "{scripts} {noun}, {lines} lines: {verdict}")?;
        for (what, count) in &self.counts {
            writeln!(output, "{what}: {count}")?;
        }
        Ok(())
    }
}

impl fmt::Display for Difference {
    fn fmt(&self, output: &mut fmt::Formatter) -> fmt::Result {
        let (seed, before, now) = (self.seed, self.lines_before, self.script.len());
        writeln!(output, "seed {seed}: {before} lines, shortened to {now}:")?;
        for run in self.script.chunk_by(|line, next| line == next) {
            write_run(output, self.kind, run)?;
        }
        if self.ending == Ending::NoLf {
            writeln!(output, "the last line without LF")?;
        }
        writeln!(output, "this program:")?;
        write!(output, "{}", String::from_utf8_lossy(&self.own))?;
        writeln!(output, "the other:")?;
        write!(output, "{}", String::from_utf8_lossy(&self.other))
    }
}

/// Lines that are all the same; of many in a journey only one is shown.
fn write_run(output: &mut fmt::Formatter, kind: Kind, run: &[Vec<u8>]) -> fmt::Result {
    let line = String::from_utf8_lossy(&run[0]);
    match (kind, run.len()) {
        (Kind::Journeys, SHOWN_MAX..) => writeln!(output, "{line}    ({} times)", run.len()),
        _ => run.iter().try_for_each(|_| writeln!(output, "{line}")),
    }
}
