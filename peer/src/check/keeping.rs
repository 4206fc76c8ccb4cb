//! Another which program, which keeps the state before each line and goes on from there, and whose rules can be made wrong
//! one at a time.

use crate::module::Mode;
use crate::script::{parse, Line, Player};

/// A line of a script and what became of it.
pub struct Seen {
    /// `None` for a BAD line.
    pub line: Option<Line>,
    pub answer: u8,
    pub before: Player,
}

#[derive(Clone, Copy)]
pub struct Rules {
    /// The lines of a script, without their LFs.
    pub lines: fn(&[u8]) -> Vec<&[u8]>,
    /// What a line is.
    pub parse: fn(&[u8]) -> Option<Line>,
    /// Whether a script with these lines is LONG.
    pub long: fn(&[u8], &[Option<Line>]) -> bool,
    /// Whether LONG is judged when FALLBACK is not printed.
    pub long_late: bool,
    /// Whether FALLBACK is printed, by the lines and the module at the end.
    pub fallback: fn(&[Seen], &Player) -> bool,
    /// Whether the line at a place is taken out.
    pub tried: fn(&[Seen], usize) -> bool,
    /// The mode at the end without it, by the lines, the place and the module at the end.
    pub without: fn(&[Seen], usize, &Player) -> Mode,
    /// Whether a line with this mode without it matters.
    pub asked: fn(Mode) -> bool,
    /// Which of several places is told.
    pub told: fn(&[usize]) -> Option<usize>,
    /// The number of a line.
    pub number: fn(&[Seen], usize) -> usize,
    pub print: fn(usize) -> String,
    pub words: Words,
}

#[derive(Clone, Copy)]
pub struct Words {
    pub long: &'static str,
    pub fallback: &'static str,
    pub none: &'static str,
}

pub const RIGHT: Rules = Rules {
    lines: |text| {
        let lines = text.split_inclusive(|&byte| byte == b'\n');
        lines
            .map(|line| line.strip_suffix(b"\n").unwrap_or(line))
            .collect()
    },
    parse,
    long: |text, lines| lines.len() > 200 || text.len() > 60_000,
    long_late: false,
    fallback: |_, end| end.agent.mode == Mode::Fallback,
    tried: |seen, place| matches!(seen[place].line, Some(Line::Frame { .. })),
    without: |seen, place, _| go_on(&seen[place].before, &seen[place + 1..]),
    asked: |mode| mode == Mode::Fallback,
    told: |places| places.first().copied(),
    number: |_, place| place + 1,
    print: |number| format!("{number}\n"),
    words: Words {
        long: "LONG\n",
        fallback: "FALLBACK\n",
        none: "NONE\n",
    },
};

/// The mode after these lines, played on a module like this one.
pub fn go_on(start: &Player, seen: &[Seen]) -> Mode {
    let mut player = start.clone();
    for line in seen.iter().filter_map(|seen| seen.line.clone()) {
        player.play_line(line);
    }
    player.agent.mode
}

pub fn print(rules: &Rules, text: &[u8]) -> String {
    let lines = (rules.lines)(text).into_iter().map(rules.parse);
    let lines: Vec<Option<Line>> = lines.collect();
    let long = (rules.long)(text, &lines);
    if long && !rules.long_late {
        return rules.words.long.to_string();
    }
    let mut player = Player::power_up();
    let seen = lines.into_iter().map(|line| see(&mut player, line));
    let seen: Vec<Seen> = seen.collect();
    if (rules.fallback)(&seen, &player) {
        return rules.words.fallback.to_string();
    }
    if long {
        return rules.words.long.to_string();
    }
    let matters = |&place: &usize| {
        (rules.tried)(&seen, place) && (rules.asked)((rules.without)(&seen, place, &player))
    };
    let places: Vec<usize> = (0..seen.len()).filter(matters).collect();
    match (rules.told)(&places) {
        Some(place) => (rules.print)((rules.number)(&seen, place)),
        None => rules.words.none.to_string(),
    }
}

fn see(player: &mut Player, line: Option<Line>) -> Seen {
    let before = player.clone();
    let played = line.clone().map(|line| player.play_line(line));
    Seen {
        line,
        answer: played.map_or(0, |played| played.answer),
        before,
    }
}
