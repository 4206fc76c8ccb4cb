//! What a run with struck lines came to, in numbers and in words.

use super::choice::WIDER;
use super::control::Count;
use super::printed::Printed;
use super::question::Ways;
use super::terminals::Seen;
use std::collections::BTreeMap;
use std::fmt;

#[derive(Default)]
pub struct Report {
    pub scripts: usize,
    pub lines: usize,
    pub choices: usize,
    pub runs: usize,
    /// By answer, for the numbers that may be struck.
    pub struck: BTreeMap<u8, Struck>,
    pub seen: Seen,
    pub control: BTreeMap<u8, Count>,
    pub difference: Option<Difference>,
}

/// Lines with an answer: how many there are, how many of them in RUN, and how often one was struck.
#[derive(Clone, Copy, Default)]
pub struct Struck {
    pub lines: usize,
    pub running: usize,
    pub times: usize,
}

pub struct Difference {
    pub seed: u64,
    pub question: String,
    pub lines_before: usize,
    pub script: Vec<Vec<u8>>,
    /// The numbers of the lines that are struck.
    pub struck: Vec<usize>,
    pub ways: Ways,
}

impl Report {
    pub fn right(&self) -> bool {
        self.difference.is_none() && self.control.values().all(Count::right)
    }

    pub fn add_script(&mut self, trace: &Printed) {
        self.scripts += 1;
        self.lines += trace.texts.len();
        for number in WIDER {
            let struck = self.struck.entry(number).or_default();
            for place in places(&trace.answered(&[number])) {
                struck.lines += 1;
                struck.running += (trace.running(place) == Some(true)) as usize;
            }
        }
    }

    pub fn add_choice(&mut self, trace: &Printed, struck: &[bool]) {
        self.choices += 1;
        for place in places(struck) {
            let answer = trace.answer(place).expect("an answer that may be struck");
            self.struck.entry(answer).or_default().times += 1;
        }
    }

    pub fn add_seen(&mut self, seen: Seen) {
        self.seen.bytes += seen.bytes;
        self.seen.lit += seen.lit;
    }
}

fn places(struck: &[bool]) -> impl Iterator<Item = usize> + '_ {
    let places = 0..struck.len();
    places.filter(|&place| struck[place])
}

impl fmt::Display for Report {
    fn fmt(&self, output: &mut fmt::Formatter) -> fmt::Result {
        if let Some(difference) = &self.difference {
            write!(output, "{difference}")?;
        }
        let verdict = match self.difference {
            None => "no difference",
            Some(_) => "DIFFERENT",
        };
        let (scripts, lines) = (self.scripts, self.lines);
        writeln!(output, "{scripts} scripts, {lines} lines: {verdict}")?;
        let times: usize = self.struck.values().map(|struck| struck.times).sum();
        let (choices, runs) = (self.choices, self.runs);
        writeln!(
            output,
            "{times} lines struck in {choices} choices, {runs} runs"
        )?;
        for (answer, struck) in &self.struck {
            writeln!(output, "answer {answer:>2}: {struck}")?;
        }
        let Seen { bytes, lit } = self.seen;
        writeln!(output, "terminals: {bytes} bytes, {lit} of them not 00h")?;
        for (answer, count) in &self.control {
            writeln!(output, "control {answer:>2}: {count}")?;
        }
        Ok(())
    }
}

impl fmt::Display for Struck {
    fn fmt(&self, output: &mut fmt::Formatter) -> fmt::Result {
        let (lines, running, times) = (self.lines, self.running, self.times);
        write!(
            output,
            "{lines} lines, {running} in RUN, struck {times} times"
        )
    }
}

impl fmt::Display for Count {
    fn fmt(&self, output: &mut fmt::Formatter) -> fmt::Result {
        let (scripts, noticed) = (self.scripts, self.noticed);
        write!(output, "{scripts} scripts, {noticed} noticed")?;
        match self.right() {
            true => Ok(()),
            false => write!(output, ", NEVER NOTICED"),
        }
    }
}

impl fmt::Display for Difference {
    fn fmt(&self, output: &mut fmt::Formatter) -> fmt::Result {
        let (seed, question) = (self.seed, &self.question);
        let (before, now) = (self.lines_before, self.script.len());
        writeln!(
            output,
            "seed {seed}, {question}: {before} lines, shortened to {now}:"
        )?;
        for line in &self.script {
            writeln!(output, "{}", String::from_utf8_lossy(line))?;
        }
        if !self.struck.is_empty() {
            let numbers: Vec<String> = self.struck.iter().map(usize::to_string).collect();
            writeln!(output, "lines struck: {}", numbers.join(", "))?;
        }
        for (what, text) in &self.ways {
            writeln!(output, "{what}:\n{text}")?;
        }
        Ok(())
    }
}
