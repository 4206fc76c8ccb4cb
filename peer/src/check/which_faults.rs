//! Which programs that are wrong about what a removal is, about the number of a line and about what is printed.

use super::keeping::{go_on, Seen};
use super::which_wrong::{frames, Change};
use crate::module::Mode;
use crate::script::{Line, Player};

/// What a removal is, and which mode counts.
pub const OF_PLAYING: [(&str, Change); 14] = [
    ("all lines behind it go too", |rules| {
        rules.without = |seen, place, _| seen[place].before.agent.mode
    }),
    ("all lines before it go too", |rules| {
        rules.without = |seen, place, _| go_on(&Player::power_up(), &seen[place + 1..])
    }),
    ("the next line goes too", |rules| {
        rules.without = |seen, place, _| {
            let behind = seen.get(place + 2..).unwrap_or_default();
            go_on(&seen[place].before, behind)
        }
    }),
    ("the line before goes too", |rules| {
        rules.without = |seen, place, _| {
            let start = &seen[place.saturating_sub(1)].before;
            go_on(start, &seen[place + 1..])
        }
    }),
    ("the line before goes instead", |rules| {
        rules.without = |seen, place, _| {
            let start = &seen[place.saturating_sub(1)].before;
            go_on(start, &seen[place..])
        }
    }),
    ("nothing goes", |rules| {
        rules.without = |_, _, end| end.agent.mode
    }),
    ("its copies go too", |rules| {
        rules.without = |seen, place, _| {
            let (before, behind) = seen.split_at(place);
            let others = before
                .iter()
                .chain(behind)
                .filter(|one| !same(one, &behind[0]));
            last_mode(&Player::power_up(), others)
        }
    }),
    ("a tick takes its place", |rules| {
        rules.without = |seen, place, _| {
            let mut player = seen[place].before.clone();
            player.play_line(Line::Ticks(1));
            go_on(&player, &seen[place + 1..])
        }
    }),
    ("the module is not powered up anew", |rules| {
        rules.without = |seen, place, end| {
            let others = seen[..place].iter().chain(&seen[place + 1..]);
            last_mode(end, others)
        }
    }),
    ("the registers stay as at the end", |rules| {
        rules.without = |seen, place, end| {
            let mut player = seen[place].before.clone();
            player.agent.registers = end.agent.registers.clone();
            go_on(&player, &seen[place + 1..])
        }
    }),
    ("fallback in between counts", |rules| {
        rules.without = |seen, place, _| {
            let mut player = seen[place].before.clone();
            let mut fell = false;
            for line in seen[place + 1..]
                .iter()
                .filter_map(|seen| seen.line.clone())
            {
                let ran = player.agent.mode == Mode::Run;
                player.play_line(line);
                fell = fell || ran && player.agent.mode == Mode::Fallback;
            }
            if fell {
                Mode::Fallback
            } else {
                player.agent.mode
            }
        }
    }),
    (
        "a script that was in fallback after RUN is FALLBACK",
        |rules| {
            rules.fallback = |seen, end| {
                let modes = seen.iter().map(|seen| seen.before.agent.mode);
                let modes: Vec<Mode> = modes.chain([end.agent.mode]).collect();
                let fell = modes
                    .windows(2)
                    .any(|two| two == [Mode::Run, Mode::Fallback]);
                fell || end.agent.mode == Mode::Fallback
            }
        },
    ),
    ("a script that was in RUN is not FALLBACK", |rules| {
        rules.fallback = |seen, end| {
            let ran = seen.iter().any(|seen| seen.before.agent.mode == Mode::Run);
            !ran && end.agent.mode == Mode::Fallback
        }
    }),
    ("the mode before the last line counts", |rules| {
        rules.fallback = |seen, end| {
            let last = seen.last().map_or(end, |last| &last.before);
            last.agent.mode == Mode::Fallback
        }
    }),
];

fn same(one: &Seen, other: &Seen) -> bool {
    match (&one.line, &other.line) {
        (Some(Line::Frame { body, .. }), Some(Line::Frame { body: other, .. })) => body == other,
        _ => false,
    }
}

fn last_mode<'a>(start: &Player, seen: impl Iterator<Item = &'a Seen>) -> Mode {
    let mut player = start.clone();
    for line in seen.filter_map(|seen| seen.line.clone()) {
        player.play_line(line);
    }
    player.agent.mode
}

/// The number of a line, and what is printed.
pub const OF_WORDS: [(&str, Change); 15] = [
    ("lines are counted from 0", |rules| {
        rules.number = |_, place| place
    }),
    ("the next line is told", |rules| {
        rules.number = |_, place| place + 2
    }),
    ("frames are counted", |rules| {
        rules.number = |seen, place| frames(&seen[..=place])
    }),
    ("BAD lines are not counted in the number", |rules| {
        rules.number = |seen, place| {
            let good = seen[..=place].iter().filter(|seen| seen.line.is_some());
            good.count()
        }
    }),
    ("ticks are not counted in the number", |rules| {
        rules.number = |seen, place| {
            let ticks = |seen: &&Seen| matches!(seen.line, Some(Line::Ticks(_)));
            place + 1 - seen[..=place].iter().filter(ticks).count()
        }
    }),
    ("lines are counted from the end", |rules| {
        rules.number = |seen, place| seen.len() - place
    }),
    ("the number has 7 bits", |rules| {
        rules.print = |number| format!("{}\n", number % 128)
    }),
    ("the number has two digits", |rules| {
        rules.print = |number| format!("{}\n", number % 100)
    }),
    ("the number has leading zeros", |rules| {
        rules.print = |number| format!("{number:03}\n")
    }),
    ("no LF is printed", |rules| {
        rules.print = |number| number.to_string()
    }),
    ("nothing is printed for NONE", |rules| rules.words.none = ""),
    ("0 is printed for NONE", |rules| rules.words.none = "0\n"),
    ("NONE is printed for FALLBACK", |rules| {
        rules.words.fallback = "NONE\n"
    }),
    ("a header is printed", |rules| {
        rules.print = |number| format!("LINE\n{number}\n")
    }),
    ("LONG has a number", |rules| rules.words.long = "201 LONG\n"),
];
