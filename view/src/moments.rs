//! The milliseconds inside a line: when the mode changed, and when the clock ended a cycle. The script is played again with its
//! ticks in smaller pieces, one by one where there are not too many; a piece in which the mode changed is cut up further.

use crate::events::{Shown, Story};
use crate::programs::Programs;
use crate::script::{Kind, Script};
use crate::trace::{self, Told};

pub struct Moments {
    pub modes: Vec<ModeChange>,
    pub clock: Vec<Moment>,
    /// lines whose ticks were not played one by one
    pub whole: u64,
}

/// A drawn line, counted from 0, and the milliseconds since its start.
#[derive(Clone, Copy)]
pub struct Moment {
    pub line: usize,
    pub after: u64,
}

pub struct ModeChange {
    pub moment: Moment,
    pub run: bool,
    /// the piece of the line in which it was seen
    piece: usize,
}

/// the most ticks that are played one by one
const ONE_BY_ONE: u64 = 200_000;
/// a longer piece is first cut into pieces of this length
const STEP: u64 = 250;

/// By drawn line: the ticks of each piece; 0 for a frame, none for a BAD line.
type Pieces = Vec<Vec<u64>>;

pub fn moments_of(programs: &Programs, script: &Script, story: &Story) -> Result<Moments, String> {
    let mut pieces = first_pieces(story);
    loop {
        let mut moments = played(programs, script, story, &pieces)?;
        let long: Vec<_> = moments.modes.iter().filter(|m| pieces[m.moment.line][m.piece] > 1).collect();
        if long.is_empty() {
            let one_by_one = |line: &usize| pieces[*line].iter().all(|ticks| *ticks <= 1);
            moments.clock.retain(|moment| one_by_one(&moment.line));
            moments.whole = (0..pieces.len()).filter(|line| !one_by_one(line)).count() as u64;
            return Ok(moments);
        }
        // from the last to the first, so that the places before stay
        for mode in long.iter().rev() {
            let line = &mut pieces[mode.moment.line];
            let cut = cut(line[mode.piece]);
            line.splice(mode.piece..=mode.piece, cut);
        }
    }
}

fn first_pieces(story: &Story) -> Pieces {
    let mut left = ONE_BY_ONE;
    let pieces = story.events.iter().map(|event| match event.done.as_ref().map(|done| done.kind) {
        Some(Kind::Ticks(n)) if n <= left => {
            left -= n;
            vec![1; n as usize]
        }
        Some(Kind::Ticks(n)) => vec![n],
        Some(kind) => vec![kind.ticks()],
        None => Vec::new(),
    });
    pieces.collect()
}

fn cut(ticks: u64) -> Vec<u64> {
    let step = if ticks > STEP { STEP } else { 1 };
    (0..ticks.div_ceil(step)).map(|i| step.min(ticks - i * step)).collect()
}

fn played(programs: &Programs, script: &Script, story: &Story, pieces: &Pieces) -> Result<Moments, String> {
    let mut watch = Watch { now: None, modes: Vec::new(), clock: Vec::new() };
    let mut places = pieces.iter().enumerate().flat_map(|(line, all)| (0..all.len()).map(move |piece| (line, piece)));
    let mut after = 0;
    let mut header = true;
    programs.run(
        "saturn_trace",
        |to| write_pieces(to, script, pieces),
        |printed| {
            if std::mem::take(&mut header) {
                return Ok(());
            }
            let Told::Line { run, cyc, .. } = trace::told(printed)? else {
                return Err("BAD, in pieces only".into());
            };
            let Some(before) = watch.now.replace((run, cyc)) else {
                return Ok(());
            };
            let (line, piece) = places.next().ok_or("more lines than pieces")?;
            let ticks = pieces[line][piece];
            after = if piece == 0 { ticks } else { after + ticks };
            watch.see(before, Moment { line, after }, piece, ticks);
            if piece + 1 == pieces[line].len() {
                agrees(story, line, run, cyc)
            } else {
                Ok(())
            }
        },
    )?;
    Ok(Moments { modes: watch.modes, clock: watch.clock, whole: 0 })
}

fn write_pieces(to: &mut dyn std::io::Write, script: &Script, pieces: &Pieces) -> std::io::Result<()> {
    to.write_all(trace::POWER_UP)?;
    for (line, pieces) in script.drawn().zip(pieces) {
        for ticks in pieces {
            match line.first() {
                Some(b'T') => writeln!(to, "T {ticks}")?,
                _ => to.write_all(line).and_then(|()| to.write_all(b"\n"))?,
            }
        }
    }
    Ok(())
}

struct Watch {
    now: Option<(bool, u8)>,
    modes: Vec<ModeChange>,
    clock: Vec<Moment>,
}

impl Watch {
    fn see(&mut self, before: (bool, u8), moment: Moment, piece: usize, ticks: u64) {
        let Some((run, cyc)) = self.now else { return };
        if run != before.0 {
            self.modes.push(ModeChange { moment, run, piece });
        }
        if cyc != before.1 && ticks == 1 {
            self.clock.push(moment);
        }
    }
}

/// T n is n ticks: played in pieces, each line ends as in the whole script.
fn agrees(story: &Story, line: usize, run: bool, cyc: u8) -> Result<(), String> {
    match &story.events[line].done {
        Some(done) if (done.run, done.cyc) == (run, cyc) => Ok(()),
        _ => Err(format!("line {} ends differently in pieces", line + 1)),
    }
}

/// The mode before the first line, then each change.
pub fn bands(begins: Shown, moments: &Moments) -> Vec<(Moment, bool)> {
    let first = (Moment { line: 0, after: 0 }, begins.run);
    std::iter::once(first).chain(moments.modes.iter().map(|m| (m.moment, m.run))).collect()
}

#[cfg(test)]
mod tests {
    use super::*;

    #[test]
    fn pieces_of_a_long_line() {
        assert_eq!(cut(60_000).len(), 240);
        assert_eq!(cut(501), vec![250, 250, 1]);
        assert_eq!(cut(250), vec![1; 250]);
    }
}
