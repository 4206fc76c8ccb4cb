//! The incidents themselves: the named ones can be stored, the seeded one is a good case, the heavy ones have every removal
//! tried, and fresh ones bring up every kind.

use super::Tally;
use crate::fuzz;
use crate::generate;
use crate::incident::{edges, heavy};
use crate::module::Mode;
use crate::script::{Line, Player};
use crate::which::{self, ends_in_run, mattering, parsed, Outcome};
use std::collections::BTreeSet;

/// The seed of the stored script.
const STORED: u64 = 251;

/// The bytes of all named incidents.
const STORED_BYTES_MAX: usize = 1_400_000;

/// At least so many of 400 fresh scripts are of each kind.
const FRESH: [(&str, usize); 34] = [
    ("number", 160),
    ("NONE", 40),
    ("FALLBACK", 25),
    ("LONG by lines", 15),
    ("LONG by bytes", 15),
    ("LONG by both", 1),
    ("LONG by nothing", 0),
    ("printed something else", 0),
    ("without lines", 1),
    ("last line without LF", 60),
    ("of 199 lines", 5),
    ("of 200 lines", 20),
    ("of 201 lines", 8),
    ("of 59,999 bytes", 2),
    ("of 60,000 bytes", 10),
    ("of 60,001 bytes", 10),
    ("number: first line", 8),
    ("number: last line", 2),
    ("number: between", 100),
    ("number: behind BAD lines", 40),
    ("number: smallest of several", 15),
    ("number: of three digits", 5),
    ("number: sync", 15),
    ("number: release", 5),
    ("number: SID assignment", 15),
    ("number: TID assignment", 8),
    ("number: output write", 4),
    ("number: write of TCYC", 2),
    ("number: write of CNF_REP or CNF_CYC", 3),
    ("number: read", 3),
    ("number: order of fallback", 2),
    ("number: sync, refused with 12", 3),
    ("number: sync, refused with 22", 1),
    ("number: another write, refused with 16", 2),
];

pub fn run(tally: &mut Tally) {
    named(tally);
    seeded(tally);
    at_rest(tally);
    in_run(tally);
    heavy_without_one(tally);
    fresh(tally);
}

fn named(tally: &mut Tally) {
    let edges = edges();
    let names: BTreeSet<&str> = edges.iter().map(|edge| edge.name).collect();
    tally.check(names.len() == edges.len(), "names of incidents differ");
    let plain = |byte: u8| byte.is_ascii_lowercase() || byte.is_ascii_digit() || byte == b'-';
    let files = names.iter().all(|name| name.bytes().all(plain));
    tally.check(files, "names of incidents can be names of files");
    let bytes: usize = edges.iter().map(|edge| edge.script.len()).sum();
    tally.check(bytes < STORED_BYTES_MAX, "the named incidents are small");
}

/// A number of three digits, BAD lines and frames before it, and others that matter behind it.
fn seeded(tally: &mut Tally) {
    let script = generate::incident(STORED);
    let lines = which::read(&script[..])
        .expect("memory")
        .unwrap_or_default();
    let lines = parsed(&lines);
    let numbers = mattering(&lines);
    let smallest = numbers.first().copied().unwrap_or(0);
    let before = &lines[..smallest];
    let bad = before.iter().filter(|line| line.is_none()).count();
    let right = (195..=200).contains(&lines.len())
        && ends_in_run(&lines)
        && smallest > 100
        && numbers.len() > 1
        && bad > 10
        && frames(before) > 50;
    tally.check(right, "the seeded incident");
}

fn at_rest(tally: &mut Tally) {
    let lines = heavy_lines("rest");
    let right = half_frames(&lines) && ticks(&lines, 60_000) == 100;
    tally.check(right && ends_in_run(&lines), "the heavy incident at rest");
}

/// In RUN from the first sync behind the short line to the end.
fn in_run(tally: &mut Tally) {
    let lines = heavy_lines("run");
    let long = ticks(&lines, 60_000);
    let right = half_frames(&lines) && long == 99 && ticks(&lines, 250) == 1;
    tally.check(right, "the heavy incident in RUN");
    let short = |line: &Option<Line>| *line == Some(Line::Ticks(250));
    let place = lines.iter().position(short).unwrap_or(0);
    let modes = modes(&lines);
    let (before, after) = modes.split_at(place + 1);
    let right = before.iter().all(|&mode| mode == Mode::Fallback)
        && after.len() == 65
        && after.iter().all(|&mode| mode == Mode::Run);
    tally.check(right, "the mode of the heavy incident in RUN");
}

/// They are the same incidents with few of the ticks.
fn heavy_without_one(tally: &mut Tally) {
    for (name, ticks) in [("rest", 60), ("run", 250), ("run", 3_000)] {
        let script = heavy(name).expect("a heavy incident").script_of(ticks);
        let outcome = which::outcome(&script[..]).expect("memory");
        let what = format!("no frame of the heavy incident matters: {name}, {ticks}");
        tally.check(outcome == Outcome::None, &what);
    }
}

fn heavy_lines(name: &str) -> Vec<Option<Line>> {
    let script = heavy(name).expect("a heavy incident").script();
    let lines = which::read(&script[..]).expect("memory");
    parsed(&lines.unwrap_or_default())
}

fn half_frames(lines: &[Option<Line>]) -> bool {
    lines.len() == 200 && frames(lines) == 100
}

/// The lines of so many ticks.
fn ticks(lines: &[Option<Line>], count: u32) -> usize {
    let lines = lines.iter().flatten();
    lines.filter(|line| **line == Line::Ticks(count)).count()
}

/// After each line, none of which is BAD.
fn modes(lines: &[Option<Line>]) -> Vec<Mode> {
    let mut player = Player::power_up();
    let after = |line: &Line| {
        player.play_line(line.clone());
        player.agent.mode
    };
    lines.iter().flatten().map(after).collect()
}

fn frames(lines: &[Option<Line>]) -> usize {
    let frame = |line: &&Option<Line>| matches!(line, Some(Line::Frame { .. }));
    lines.iter().filter(frame).count()
}

fn fresh(tally: &mut Tally) {
    let right = |text: &[u8]| Ok(fuzz::which_frame(text));
    let report = fuzz::compare(&fuzz::WHICH, 400, 1, right).expect("memory");
    for (what, least) in FRESH {
        let count = report.counts.get(what).copied().unwrap_or(0);
        let right = count >= least && (least > 0 || count == 0);
        tally.check(right, &format!("fresh incidents, {what}: {count}"));
    }
}
