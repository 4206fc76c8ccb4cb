//! Another load program, which works line by line, and whose rules can be made wrong one at a time.

use crate::frame::{self, Frame};
use crate::module::Agent;
use crate::script::{parse, Line, Player};

/// A line of a script and what became of it.
pub struct Seen {
    /// `None` for a BAD line.
    pub line: Option<Line>,
    pub sync: bool,
    pub answer: u8,
    pub reply: Vec<u8>,
    pub before: Agent,
    pub after: Agent,
    pub clock_ended: bool,
    pub has_lf: bool,
}

/// A cycle while it is open.
pub struct Open {
    pub number: usize,
    pub tcyc: u8,
    pub bytes: usize,
}

#[derive(Clone, Copy)]
pub struct Rules {
    /// What a line counts in the numbers of lines.
    pub counts: fn(&Seen) -> usize,
    pub opens: fn(&Seen) -> bool,
    /// Whether it ends a cycle without opening one.
    pub ends: fn(&Seen) -> bool,
    pub wire_bytes: fn(&Seen) -> usize,
    /// The bytes of a sync's own reply that count in its cycle; the rest counts in the one before.
    pub own: fn(usize) -> usize,
    /// TCYC, from the cycle and the module at its end.
    pub tcyc: fn(&Open, &Agent) -> u8,
    /// Whether what is sent before the first cycle counts in it.
    pub early: bool,
    /// Whether the cycle that is open at the end is printed.
    pub last: bool,
    pub print: fn(&Open) -> String,
}

pub const RIGHT: Rules = Rules {
    counts: |_| 1,
    opens: |seen| seen.sync && seen.answer == 0,
    ends: |_| false,
    wire_bytes: |seen| seen.reply.len(),
    own: |bytes| bytes,
    tcyc: |open, _| open.tcyc,
    early: false,
    last: true,
    print: |open| {
        share(open, |dividend, divisor| {
            (dividend / divisor, dividend % divisor)
        })
    },
};

pub fn share(open: &Open, divide: fn(usize, usize) -> (usize, usize)) -> String {
    let (quotient, remainder) = divide(open.bytes * 10 * 1_000, open.tcyc as usize * 12_000);
    format!("{} {quotient} {remainder}\n", open.number)
}

pub fn watch(script: &[u8]) -> Vec<Seen> {
    let mut player = Player::power_up();
    let lines = script.split_inclusive(|&byte| byte == b'\n');
    lines.map(|line| see(&mut player, line)).collect()
}

fn see(player: &mut Player, text: &[u8]) -> Seen {
    let line = parse(text.strip_suffix(b"\n").unwrap_or(text));
    let before = player.agent.clone();
    let played = line.clone().map(|line| player.play_line(line));
    let ticks = match line {
        Some(Line::Ticks(count)) => count,
        Some(Line::Inputs(_)) => 1,
        _ => 0,
    };
    let left = (before.registers.tcyc() as u32).saturating_sub(before.in_cycle as u32);
    Seen {
        sync: matches!(&line, Some(Line::Frame { body, .. }) if is_sync(body)),
        line,
        answer: played.as_ref().map_or(0, |played| played.answer),
        reply: played.map_or(Vec::new(), |played| played.reply),
        before,
        after: player.agent.clone(),
        clock_ended: ticks > 0 && ticks >= left,
        has_lf: text.ends_with(b"\n"),
    }
}

fn is_sync(body: &[u8]) -> bool {
    frame::read(body).is_ok_and(|read| matches!(read.frame, Frame::Sync { .. }))
}

/// What a program with these rules prints.
pub fn print(rules: &Rules, lines: &[Seen]) -> String {
    let (mut printed, mut number, mut early) = (String::new(), 0, 0);
    let mut open: Option<Open> = None;
    for seen in lines {
        number += (rules.counts)(seen);
        let mut bytes = (rules.wire_bytes)(seen);
        if (rules.opens)(seen) {
            let own = (rules.own)(bytes);
            if let Some(open) = &mut open {
                open.bytes += bytes - own;
            }
            printed += &close(rules, open.take(), &seen.before);
            open = Some(Open {
                number,
                tcyc: seen.after.registers.tcyc(),
                bytes: std::mem::take(&mut early),
            });
            bytes = own;
        } else if (rules.ends)(seen) {
            printed += &close(rules, open.take(), &seen.after);
        }
        match &mut open {
            Some(open) => open.bytes += bytes,
            None if rules.early => early += bytes,
            None => {}
        }
    }
    if let (true, Some(seen)) = (rules.last, lines.last()) {
        printed += &close(rules, open, &seen.after);
    }
    printed
}

fn close(rules: &Rules, open: Option<Open>, end: &Agent) -> String {
    open.map_or(String::new(), |open| {
        let tcyc = (rules.tcyc)(&open, end);
        (rules.print)(&Open { tcyc, ..open })
    })
}
