//! Which programs that are wrong in one way each: a stored incident shows it. And changes that nobody can notice, since such
//! a line never matters.

use super::keeping::{print, Rules, Seen, RIGHT};
use super::which_faults::{OF_PLAYING, OF_WORDS};
use super::which_length::{OF_LENGTH, OF_LINES};
use super::Tally;
use crate::fuzz;
use crate::incident;
use crate::module::Mode;
use crate::script::Line;

pub type Change = fn(&mut Rules);

/// Which lines are taken out, and which of them is told.
const OF_SEARCH: [(&str, Change); 24] = [
    ("the largest number is told", |rules| {
        rules.told = |places| places.last().copied()
    }),
    ("the second of several is told", |rules| {
        rules.told = |places| places.get(1).or(places.first()).copied()
    }),
    ("a line without which RUN stays is told", |rules| {
        rules.asked = |mode| mode == Mode::Run
    }),
    ("a line is told for FALLBACK, too", |rules| {
        rules.fallback = |_, _| false
    }),
    ("a line that turns FALLBACK into RUN is told", |rules| {
        rules.fallback = |seen, end| {
            let run = |place| (RIGHT.without)(seen, place, end) == Mode::Run;
            let mut tried = (0..seen.len()).filter(|&place| (RIGHT.tried)(seen, place));
            (RIGHT.fallback)(seen, end) && !tried.any(run)
        }
    }),
    ("the first line is never tried", |rules| {
        rules.tried = |seen, place| place > 0 && (RIGHT.tried)(seen, place)
    }),
    ("the last line is never tried", |rules| {
        rules.tried = |seen, place| place + 1 < seen.len() && (RIGHT.tried)(seen, place)
    }),
    ("only the first 100 lines are tried", |rules| {
        rules.tried = |seen, place| place < 100 && (RIGHT.tried)(seen, place)
    }),
    ("only the first 64 frames are tried", |rules| {
        rules.tried = |seen, place| frames(&seen[..place]) < 64 && (RIGHT.tried)(seen, place)
    }),
    ("only the first frame is tried", |rules| {
        rules.tried = |seen, place| frames(&seen[..place]) == 0 && (RIGHT.tried)(seen, place)
    }),
    ("ticks are tried", |rules| {
        rules.tried = |seen, place| {
            let ticks = matches!(seen[place].line, Some(Line::Ticks(_)));
            ticks || (RIGHT.tried)(seen, place)
        }
    }),
    ("inputs are tried", |rules| {
        rules.tried = |seen, place| {
            let inputs = matches!(seen[place].line, Some(Line::Inputs(_)));
            inputs || (RIGHT.tried)(seen, place)
        }
    }),
    ("refused frames are not tried", |rules| {
        rules.tried = |seen, place| seen[place].answer == 0 && (RIGHT.tried)(seen, place)
    }),
    ("frames with 12 are not tried", |rules| {
        rules.tried = |seen, place| seen[place].answer != 12 && (RIGHT.tried)(seen, place)
    }),
    ("frames with 16 are not tried", |rules| {
        rules.tried = |seen, place| seen[place].answer != 16 && (RIGHT.tried)(seen, place)
    }),
    ("frames with 22 are not tried", |rules| {
        rules.tried = |seen, place| seen[place].answer != 22 && (RIGHT.tried)(seen, place)
    }),
    ("only refused frames are tried", |rules| {
        rules.tried = |seen, place| seen[place].answer != 0 && (RIGHT.tried)(seen, place)
    }),
    ("frames on port 2 are not tried", |rules| {
        rules.tried = |seen, place| on_port(seen, place, 1)
    }),
    ("frames on port 1 are not tried", |rules| {
        rules.tried = |seen, place| on_port(seen, place, 2)
    }),
    ("assignments are not tried", |rules| {
        rules.tried = |seen, place| tried_but(seen, place, &[0x3C, 0xC3])
    }),
    ("TID assignments are not tried", |rules| {
        rules.tried = |seen, place| tried_but(seen, place, &[0x3C])
    }),
    ("requests are not tried", |rules| {
        rules.tried = |seen, place| tried_but(seen, place, &[0x07])
    }),
    ("syncs are not tried", |rules| {
        rules.tried = |seen, place| tried_but(seen, place, &[0x00])
    }),
    ("frames taken in fallback are not tried", |rules| {
        rules.tried =
            |seen, place| seen[place].before.agent.mode == Mode::Run && (RIGHT.tried)(seen, place)
    }),
];

/// Nobody notices these: such a line leaves nothing, or nothing that the mode goes by.
const UNNOTICED: [(&str, Change); 4] = [
    ("BAD lines are tried", |rules| {
        rules.tried = |seen, place| seen[place].line.is_none() || (RIGHT.tried)(seen, place)
    }),
    ("frames with 21 are not tried", |rules| {
        rules.tried = |seen, place| seen[place].answer != 21 && (RIGHT.tried)(seen, place)
    }),
    ("only 0, 12, 16 and 22 are tried", |rules| {
        rules.tried = |seen, place| {
            [0, 12, 16, 22].contains(&seen[place].answer) && (RIGHT.tried)(seen, place)
        }
    }),
    ("requests with 12 are not tried", |rules| {
        rules.tried = |seen, place| {
            let late = seen[place].answer == 12 && !tried_but(seen, place, &[0x07]);
            !late && (RIGHT.tried)(seen, place)
        }
    }),
];

pub fn frames(seen: &[Seen]) -> usize {
    let all = 0..seen.len();
    all.filter(|&place| (RIGHT.tried)(seen, place)).count()
}

fn on_port(seen: &[Seen], place: usize, wanted: u8) -> bool {
    matches!(seen[place].line, Some(Line::Frame { port, .. }) if port == wanted)
}

/// Frames but those of these TYPs; the TYP is the second byte of a body, and none of these is stuffed.
fn tried_but(seen: &[Seen], place: usize, typs: &[u8]) -> bool {
    match &seen[place].line {
        Some(Line::Frame { body, .. }) => !body.get(1).is_some_and(|typ| typs.contains(typ)),
        _ => false,
    }
}

pub fn run(tally: &mut Tally) {
    let edges = incident::edges();
    let stored: Vec<(&[u8], String)> = edges
        .iter()
        .map(|edge| (&edge.script[..], format!("{}\n", edge.answer)))
        .collect();
    let differs = |rules: &Rules| {
        let mut stored = stored.iter();
        stored.any(|(script, answer)| print(rules, script) != *answer)
    };
    tally.check(!differs(&RIGHT), "incidents, by the states that were kept");
    let wrong = [
        &OF_SEARCH[..],
        &OF_LENGTH,
        &OF_LINES,
        &OF_PLAYING,
        &OF_WORDS,
    ];
    for (what, change) in wrong.into_iter().flatten() {
        let mut rules = RIGHT;
        change(&mut rules);
        let what = format!("a which program in which {what}");
        tally.check(differs(&rules), &what);
    }
    for (what, change) in UNNOTICED {
        let mut rules = RIGHT;
        change(&mut rules);
        let what = format!("a which program in which {what}, as it may be");
        tally.check(!differs(&rules) && same_of_fresh(&rules, 60), &what);
    }
    short(tally);
}

fn same_of_fresh(rules: &Rules, count: usize) -> bool {
    let other = |text: &[u8]| Ok(print(rules, text).into_bytes());
    let report = fuzz::compare(&fuzz::WHICH, count, 41, other).expect("memory");
    report.difference.is_none() && report.scripts == count
}

/// Fresh scripts notice one too, and the shortest that shows it has the four frames of RUN, perhaps a TID, and no more.
fn short(tally: &mut Tally) {
    let mut wrong = RIGHT;
    OF_SEARCH[0].1(&mut wrong);
    let other = |text: &[u8]| Ok(print(&wrong, text).into_bytes());
    let report = fuzz::compare(&fuzz::WHICH, 60, 41, other).expect("memory");
    let right = report.difference.is_some_and(|found| {
        let last = found.script.len();
        (4..=5).contains(&last)
            && found.lines_before > 20
            && found.own == b"1\n"
            && found.other == format!("{last}\n").into_bytes()
    });
    tally.check(right, "the shortest script whose largest line is told");
    tally.check(
        same_of_fresh(&RIGHT, 300),
        "fresh incidents, by the states that were kept",
    );
}
