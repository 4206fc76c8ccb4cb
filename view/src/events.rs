//! What saturn-trace says of the script as it stands: an event for each drawn line, and the counts and the end of all lines.

use crate::changes::{self, Change};
use crate::programs::Programs;
use crate::script::{self, Kind, Script, MOST_DRAWN};
use crate::trace::{self, Digits, Told};

/// What a line that is not BAD came to.
pub struct Done {
    pub kind: Kind,
    pub answer: u8,
    pub run: bool,
    pub cyc: u8,
    pub changes: Vec<Change>,
    /// in hex digits, with both flags
    pub reply: Option<String>,
}

/// A drawn line; None for BAD.
pub struct Event {
    /// ms since power-up when the line starts
    pub start: u64,
    pub done: Option<Done>,
}

impl Event {
    pub fn end(&self) -> u64 {
        self.start + self.done.as_ref().map_or(0, |done| done.kind.ticks())
    }

    pub fn refused(&self) -> bool {
        self.done.as_ref().is_some_and(|done| done.answer != 0)
    }
}

pub struct Story {
    pub events: Vec<Event>,
    /// lines by answer, and BAD ones
    pub counts: [u64; 256],
    pub bad: u64,
    pub lines: u64,
    /// ms of all lines
    pub time: u64,
    /// mode, cycle and ground at power-up and after all lines
    pub begins: Shown,
    pub ends: Shown,
}

#[derive(Clone, Copy)]
pub struct Shown {
    pub run: bool,
    pub cyc: u8,
    pub ground: u8,
}

/// Register 26h.
const GROUND: usize = 0x26;

pub fn story_of(programs: &Programs, script: &Script) -> Result<Story, String> {
    let mut lines = script.lines();
    let mut reader = Reader::default();
    programs.run(
        "saturn_trace",
        |to| to.write_all(trace::POWER_UP).and_then(|()| to.write_all(&script.bytes)),
        |printed| reader.take(printed, &mut lines),
    )?;
    let story = reader.story.ok_or("saturn_trace printed nothing")?;
    if lines.next().is_some() {
        return Err("saturn_trace ended before the script did".into());
    }
    Ok(story)
}

#[derive(Default)]
struct Reader {
    header: bool,
    before: Before,
    story: Option<Story>,
}

impl Reader {
    fn take<'a>(&mut self, printed: &[u8], lines: &mut impl Iterator<Item = &'a [u8]>) -> Result<(), String> {
        if !self.header {
            self.header = true;
            return Ok(());
        }
        let told = trace::told(printed)?;
        let Some(story) = &mut self.story else {
            return self.power_up(told);
        };
        let line = lines.next().ok_or("more lines than the script has")?;
        let start = story.time;
        story.lines += 1;
        let done = match told {
            Told::Bad => {
                story.bad += 1;
                None
            }
            Told::Line { answer, run, cyc, reply, registers } => {
                let kind = script::kind_of(line);
                story.time += kind.ticks();
                story.counts[usize::from(answer)] += 1;
                story.ends = Shown { run, cyc, ground: trace::register(registers, GROUND)? };
                let drawn = story.events.len() < MOST_DRAWN;
                let changes = if drawn { self.before.changed(registers)? } else { Vec::new() };
                let reply = reply.map(|digits| String::from_utf8_lossy(digits).into_owned());
                Some(Done { kind, answer, run, cyc, changes, reply })
            }
        };
        if story.events.len() < MOST_DRAWN {
            story.events.push(Event { start, done });
        }
        Ok(())
    }

    fn power_up(&mut self, told: Told) -> Result<(), String> {
        let Told::Line { run, cyc, registers, .. } = told else {
            return Err("no line of power-up".into());
        };
        self.before = Before(registers.to_vec());
        let begins = Shown { run, cyc, ground: trace::register(registers, GROUND)? };
        let (events, counts) = (Vec::new(), [0; 256]);
        self.story = Some(Story { events, counts, bad: 0, lines: 0, time: 0, begins, ends: begins });
        Ok(())
    }
}

/// The registers after the line before, in hex digits.
#[derive(Default)]
struct Before(Vec<u8>);

impl Before {
    /// What changed since; from now on these are the registers before.
    fn changed(&mut self, after: &Digits) -> Result<Vec<Change>, String> {
        if self.0 == after {
            return Ok(Vec::new());
        }
        let before: &Digits = self.0[..].try_into().map_err(|_| "registers cut short")?;
        let changes = changes::between(&trace::registers(before)?, &trace::registers(after)?);
        self.0.copy_from_slice(after);
        Ok(changes)
    }
}
