//! Fresh scripts through a program of this one and another: they must print the same.

mod load;
pub(crate) mod mutate;
pub(crate) mod other;
mod report;
pub(crate) mod shrink;
mod subject;
mod traced;
mod which;
mod worst;

pub(crate) use load::line_load;
pub use load::LOAD;
pub(crate) use subject::{text, Ending};
pub use subject::{Counts, Kind, Subject};
pub use traced::TRACE;
pub(crate) use traced::{script_lines, trace};
pub(crate) use which::which_frame;
pub use which::WHICH;
pub(crate) use worst::worst_thousand;
pub use worst::WORST;

use other::Other;
use std::io;
use subject::Script;

#[derive(Default)]
pub struct Report {
    pub kind: Kind,
    pub scripts: usize,
    pub lines: usize,
    pub counts: Counts,
    pub difference: Option<Difference>,
}

pub struct Difference {
    pub kind: Kind,
    pub seed: u64,
    pub lines_before: usize,
    pub script: Vec<Vec<u8>>,
    pub ending: Ending,
    pub own: Vec<u8>,
    pub other: Vec<u8>,
}

/// Stops at the first difference. An error is one of running the other program.
pub fn run(subject: &Subject, count: usize, seed: u64, command: &[&str]) -> io::Result<Report> {
    let other = Other::new(command);
    compare(subject, count, seed, |text| other.print(text))
}

/// The same with any other program.
pub fn compare(
    subject: &Subject,
    count: usize,
    seed: u64,
    other: impl Fn(&[u8]) -> io::Result<Vec<u8>>,
) -> io::Result<Report> {
    let mut report = Report {
        kind: subject.kind,
        ..Report::default()
    };
    for seed in seed..seed + count as u64 {
        let script = (subject.script)(seed);
        let text = script.text();
        let own = (subject.print)(&text);
        report.scripts += 1;
        report.lines += script.lines.len();
        (subject.count)(&text, &own, &mut report.counts);
        if other(&text)? != own {
            report.difference = Some(difference(subject, &other, seed, script)?);
            break;
        }
    }
    Ok(report)
}

fn difference(
    subject: &Subject,
    other: &impl Fn(&[u8]) -> io::Result<Vec<u8>>,
    seed: u64,
    script: Script,
) -> io::Result<Difference> {
    let Script { lines, ending } = script;
    let lines_before = lines.len();
    let fails = |lines: &[Vec<u8>]| {
        let text = ending.text(lines);
        Ok(other(&text)? != (subject.print)(&text))
    };
    let shortest = shrink::shortest(lines, fails)?;
    let script = match subject.kind {
        Kind::Scripts => shortest,
        Kind::Journeys => worst::zeros(shortest, fails)?,
    };
    let text = ending.text(&script);
    Ok(Difference {
        kind: subject.kind,
        seed,
        lines_before,
        own: (subject.print)(&text),
        other: other(&text)?,
        script,
        ending,
    })
}
