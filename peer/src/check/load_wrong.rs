//! Load programs that are wrong in one way each: the stored script shows it.

use super::load;
use super::load_edges::STORED;
use super::loading::{print, share, watch, Rules, RIGHT};
use super::Tally;
use crate::census;
use crate::fuzz;
use crate::generate;
use crate::module::registers::{CONF, SILENT};
use crate::module::Mode;
use crate::script::Line;

/// The reply to a sync of eight bytes, with the two flags.
const SYNC_REPLY: usize = 28;

type Change = fn(&mut Rules);

/// What opens a cycle, ends it, and where it stands.
const OF_CYCLES: [(&str, Change); 15] = [
    ("the last cycle is not printed", |rules| rules.last = false),
    ("a clock end ends a cycle", |rules| {
        rules.ends = |seen| seen.clock_ended
    }),
    ("a line of ticks ends a cycle", |rules| {
        rules.ends = |seen| matches!(seen.line, Some(Line::Ticks(_)))
    }),
    ("fallback ends a cycle", |rules| {
        rules.ends = |seen| seen.before.mode == Mode::Run && seen.after.mode == Mode::Fallback
    }),
    ("a refused sync ends a cycle", |rules| {
        rules.ends = |seen| seen.sync && seen.answer != 0
    }),
    ("a repeated sync opens a cycle", |rules| {
        rules.opens = |seen| seen.sync && [0, 13].contains(&seen.answer)
    }),
    ("a sync outside its window opens a cycle", |rules| {
        rules.opens = |seen| seen.sync && [0, 22].contains(&seen.answer)
    }),
    ("a sync of a wrong cycle opens a cycle", |rules| {
        rules.opens = |seen| seen.sync && [0, 12].contains(&seen.answer)
    }),
    ("only RUN opens a cycle", |rules| {
        rules.opens = |seen| seen.sync && seen.answer == 0 && seen.after.mode == Mode::Run
    }),
    ("only fallback opens a cycle", |rules| {
        rules.opens = |seen| seen.sync && seen.answer == 0 && seen.before.mode == Mode::Fallback
    }),
    ("a muted sync opens no cycle", |rules| {
        rules.opens = |seen| seen.sync && !seen.reply.is_empty()
    }),
    ("an acknowledgement opens a cycle", |rules| {
        rules.opens = |seen| seen.answer == 0 && (seen.sync || kind(&seen.reply) == Some(0x33))
    }),
    ("BAD lines are not counted", |rules| {
        rules.counts = |seen| seen.line.is_some() as usize
    }),
    ("lines are counted from 0", |rules| {
        rules.print = |open| {
            let line = (RIGHT.print)(open);
            let rest = line.split_once(' ').map_or("", |(_, rest)| rest);
            format!("{} {rest}", open.number - 1)
        }
    }),
    ("each tick counts as a line", |rules| {
        rules.counts = |seen| match seen.line {
            Some(Line::Ticks(count)) => count as usize,
            _ => 1,
        }
    }),
];

/// Which bytes are counted.
const OF_BYTES: [(&str, Change); 13] = [
    ("the sync's own reply is left out", |rules| {
        rules.wire_bytes = |seen| if seen.sync { 0 } else { seen.reply.len() }
    }),
    ("the sync's own reply counts in the cycle before", |rules| {
        rules.own = |_| 0
    }),
    ("the sync's own reply counts by itself", |rules| {
        rules.wire_bytes = |seen| if seen.sync { seen.reply.len() } else { 0 }
    }),
    ("stuffing is not counted", |rules| {
        rules.wire_bytes = |seen| seen.reply.iter().filter(|&&byte| byte != 0x7D).count()
    }),
    ("flags are not counted", |rules| {
        rules.wire_bytes = |seen| seen.reply.len().saturating_sub(2)
    }),
    ("one flag is counted", |rules| {
        rules.wire_bytes = |seen| seen.reply.len().saturating_sub(1)
    }),
    ("what is sent before the first sync is counted", |rules| {
        rules.early = true
    }),
    ("acknowledgements are not counted", |rules| {
        rules.wire_bytes = |seen| without(&seen.reply, |reply| kind(reply) == Some(0x33))
    }),
    ("error replies to syncs are not counted", |rules| {
        rules.wire_bytes = |seen| without(&seen.reply, |reply| error(reply, 0xAA))
    }),
    ("error replies to reads are not counted", |rules| {
        rules.wire_bytes = |seen| without(&seen.reply, |reply| error(reply, 0x55))
    }),
    ("a muted module's replies are counted", |rules| {
        rules.wire_bytes = |seen| {
            let muted = seen.before.registers[CONF] & SILENT != 0;
            match seen.sync && seen.answer == 0 && muted {
                true => SYNC_REPLY,
                false => seen.reply.len(),
            }
        }
    }),
    ("only port 1 is counted", |rules| {
        rules.wire_bytes = |seen| match seen.line {
            Some(Line::Frame { port: 1, .. }) => seen.reply.len(),
            _ => 0,
        }
    }),
    ("a last line without LF is not read", |rules| {
        rules.opens = |seen| (RIGHT.opens)(seen) && seen.has_lf;
        rules.wire_bytes = |seen| if seen.has_lf { seen.reply.len() } else { 0 }
    }),
];

/// What is divided, and what is printed of it.
const OF_NUMBERS: [(&str, Change); 9] = [
    ("TCYC is that at the end of the cycle", |rules| {
        rules.tcyc = |_, end| end.registers.tcyc()
    }),
    ("TCYC stays as at power-up", |rules| rules.tcyc = |_, _| 255),
    ("the quotient is rounded", |rules| {
        rules.print = |open| share(open, |a, b| ((a + b / 2) / b, a % b))
    }),
    ("the quotient ends at 1,000", |rules| {
        rules.print = |open| share(open, |a, b| ((a / b).min(1_000), a % b))
    }),
    ("the fraction is reduced", |rules| {
        rules.print = |open| share(open, |a, b| (a / b, a % b / 1_000))
    }),
    ("a byte has eight bits", |rules| {
        rules.print = |open| share(open, |a, b| (a / 10 * 8 / b, a / 10 * 8 % b))
    }),
    ("the dividend has 16 bits", |rules| {
        rules.print = |open| share(open, |a, b| (a % 65_536 / b, a % 65_536 % b))
    }),
    ("a cycle with nothing sent is not printed", |rules| {
        rules.print = |open| match open.bytes {
            0 => String::new(),
            _ => (RIGHT.print)(open),
        }
    }),
    ("quotient and remainder change places", |rules| {
        rules.print = |open| share(open, |a, b| (a % b, a / b))
    }),
];

/// Of a reply; the address is not stuffed, nor is any TYP.
fn kind(reply: &[u8]) -> Option<u8> {
    reply.get(2).copied()
}

/// Whether it is an error reply with this COM.
fn error(reply: &[u8], com: u8) -> bool {
    let events = match reply.is_empty() {
        true => Vec::new(),
        false => census::sent(reply),
    };
    events.contains(&format!("error reply {com:02X}h").as_str())
}

fn without(reply: &[u8], left_out: fn(&[u8]) -> bool) -> usize {
    match left_out(reply) {
        true => 0,
        false => reply.len(),
    }
}

pub fn run(tally: &mut Tally) {
    let (seed, lines) = STORED;
    let script = generate::loads(seed, lines);
    let (seen, right) = (watch(&script), load::printed(&script));
    let same = print(&RIGHT, &seen) == right;
    tally.check(same, "the stored line load, line by line");
    for (what, change) in OF_CYCLES.into_iter().chain(OF_BYTES).chain(OF_NUMBERS) {
        let mut wrong = RIGHT;
        change(&mut wrong);
        let noticed = print(&wrong, &seen) != right;
        tally.check(noticed, &format!("a load program in which {what}"));
    }
    short(tally);
}

/// Fresh scripts notice one too, and the shortest that shows it is a short one: names, a sync, a line that sends.
fn short(tally: &mut Tally) {
    let mut wrong = RIGHT;
    OF_BYTES[2].1(&mut wrong);
    let other = |text: &[u8]| Ok(print(&wrong, &watch(text)).into_bytes());
    let report = fuzz::compare(&fuzz::LOAD, 5, 31, other).expect("memory");
    let right = report.difference.is_some_and(|found| {
        found.script.len() <= 4 && found.lines_before > 50 && found.own != found.other
    });
    tally.check(right, "the shortest script in which only syncs send");
    let right = |text: &[u8]| Ok(print(&RIGHT, &watch(text)).into_bytes());
    let report = fuzz::compare(&fuzz::LOAD, 30, 31, right).expect("memory");
    let same = report.difference.is_none() && report.scripts == 30;
    tally.check(same, "fresh line loads, line by line");
}
