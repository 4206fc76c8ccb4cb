//! Scripts from which refused frames are struck, through a trace program and a script program: every line that is
//! left must print what it printed before. And what the terminals show, worked out by a watcher.

mod choice;
mod control;
mod marked;
mod noise;
mod printed;
mod program;
mod question;
mod report;
mod terminals;
mod thinned;

pub use choice::{NAMED, WIDER};
pub use control::{Count, LEAVING};
pub use marked::Marked;
pub use noise::between;
pub use printed::Printed;
pub use program::{Printer, Programs};
pub use question::{Finding, Question};
pub use report::{Difference, Report};
pub use terminals::{judge, Terminals};
pub use thinned::without;

use crate::fuzz::{self, other::Other, shrink};
use crate::generate::random::Random;
use crate::script::Program;
use std::io;

/// Random numbers of this command are not those of the script's own generator.
const SALT: u64 = 0x5354_5249_4B45;

/// One script in this many is as the generator makes it.
const PLAIN_ONE_IN: usize = 4;

/// Stops at the first difference. An error is one of running the other programs.
pub fn run(count: usize, seed: u64, trace: &[&str], script: &[&str]) -> io::Result<Report> {
    let (trace, script) = (Other::new(trace), Other::new(script));
    let programs = Programs {
        trace: Printer::new(|text| trace.print(text)),
        script: Printer::new(|text| script.print(text)),
    };
    let mut report = Report::default();
    for seed in seed..seed + count as u64 {
        if let Some(finding) = try_script(&programs, seed, script_lines(seed), &mut report)? {
            report.difference = Some(shortened(&programs, seed, finding)?);
            break;
        }
    }
    report.runs = programs.runs();
    Ok(report)
}

/// A fresh script, in most of them with frames between that a module has to leave alone.
fn script_lines(seed: u64) -> Vec<Vec<u8>> {
    let random = &mut Random::new(seed ^ SALT);
    let lines = fuzz::script_lines(seed);
    match random.one_in(PLAIN_ONE_IN) {
        true => lines,
        false => between(random, &lines),
    }
}

/// Everything that is asked of one script; the first thing that is not as it must be.
pub fn try_script(
    programs: &Programs,
    seed: u64,
    lines: Vec<Vec<u8>>,
    report: &mut Report,
) -> io::Result<Option<Finding>> {
    let lines: Vec<Marked> = lines.into_iter().map(Marked::from).collect();
    let whole = match programs.play(&lines)? {
        Ok(whole) => whole,
        Err(ways) => return Ok(Some(Question::Printed.finding(lines, ways))),
    };
    report.add_script(&whole.trace);
    match terminals::judge(&lines, &whole.trace) {
        Ok(seen) => report.add_seen(seen),
        Err(ways) => return Ok(Some(Question::Terminals.finding(lines, ways))),
    }
    let random = &mut Random::new(!seed ^ SALT);
    for choice in choice::some(random, &whole.trace) {
        let lines = marked::with(&lines, &choice.struck);
        report.add_choice(&whole.trace, &choice.struck);
        for program in [Program::Trace, Program::Script] {
            let question = Question::Struck(program, choice.name, choice.numbers);
            if let Some(ways) = question.ask_of(programs, &lines, &whole)? {
                return Ok(Some(question.finding(lines, ways)));
            }
        }
    }
    control::strike(&programs.trace, &lines, &whole.trace, &mut report.control)?;
    Ok(None)
}

pub fn shortened(programs: &Programs, seed: u64, finding: Finding) -> io::Result<Difference> {
    let Finding {
        question, lines, ..
    } = finding;
    let lines_before = lines.len();
    let lines = shrink::shortest(lines, |lines| Ok(question.ask(programs, lines)?.is_some()))?;
    Ok(Difference {
        seed,
        question: question.to_string(),
        lines_before,
        ways: question.ask(programs, &lines)?.unwrap_or(finding.ways),
        struck: marked::numbers(&lines),
        script: lines.into_iter().map(|marked| marked.line).collect(),
    })
}
