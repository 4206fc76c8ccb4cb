//! The load program: the example of the decisions, cases worked out by hand, the division, and what a trace shows.

use super::module::{FIRST, OWN, SECOND};
use super::Tally;
use crate::frame::{self, Frame, SidAssignment, BROADCAST};
use crate::fuzz;
use crate::generate::{self, speech};
use crate::hex;
use crate::load::Cycle;
use crate::script::{parse, Line};
use crate::tape::Tape;

/// From the decisions, byte for byte.
const EXAMPLE: &str = "1 FF3CF0000000000000000205B8F7
1 05C30000070000000100000000000000010000051535A918
1 FF0000000710CEEADE00
1 050700000500000710F08801191CA90A3C
T 255
";

/// Scripts of which nothing is printed.
const NO_CYCLE: [&str; 6] = [
    "",
    "\n",
    "T 60000\n",
    "BAD\n\n1 \n9 00\n",
    // A sync of a concentrator that is not recorded.
    "1 FF0000000710CEEADE00\n",
    // Names, which are acknowledged.
    "1 FF3CF0000000000000000205B8F7\n1 05C30000070000000100000000000000010000051535A918\n",
];

type Play = fn(&mut Tape);

/// What comes behind a script that enters RUN with TCYC 10 in line 8, and what is then printed of line 8 and later. The
/// own SID has a 7Dh: 29 wire bytes for the reply to a sync, 22 to a read of one byte, 21 for an error, 27 for an
/// acknowledgement. The divisor is 120,000.
const BY_HAND: [(&str, Play, &str); 27] = [
    ("no more", |_| {}, "8 2 50000\n"),
    ("a read", |tape| tape.read(1, 0x10), "8 4 30000\n"),
    (
        "a read on both ports",
        |tape| {
            tape.read(1, 0x10);
            tape.again();
        },
        "8 4 30000\n",
    ),
    ("a write", |tape| tape.write(0x80, &[1]), "8 2 50000\n"),
    ("an error reply", |tape| tape.read(0, 0x80), "8 4 20000\n"),
    ("an acknowledgement", assign_again, "8 4 80000\n"),
    (
        "an acknowledgement after the clock end",
        |tape| {
            tape.ticks(10);
            assign_again(tape);
        },
        "8 4 80000\n",
    ),
    (
        "an acknowledgement after silence and fallback",
        |tape| {
            tape.ticks(60_000);
            assign_again(tape);
        },
        "8 4 80000\n",
    ),
    ("a repeated sync", |tape| tape.sync(0x07), "8 2 50000\n"),
    (
        "the sync of a stranger",
        |tape| tape.say(1, &speech::sync(9, 0x08)),
        "8 2 50000\n",
    ),
    (
        "a sync outside its window",
        |tape| tape.say(1, &speech::sync(FIRST, 0x08)),
        "8 2 50000\n",
    ),
    (
        "a sync of a wrong cycle, which is fallback, and a read",
        |tape| {
            tape.say(1, &speech::sync(FIRST, 0x09));
            tape.read(1, 0x10);
        },
        "8 4 30000\n",
    ),
    (
        "a sync on no port",
        |tape| {
            tape.ticks(9);
            tape.say(3, &speech::sync(FIRST, 0x08));
        },
        "8 2 50000\n",
    ),
    (
        "the next sync, early in its window",
        |tape| {
            tape.ticks(9);
            tape.sync(0x08);
        },
        "8 2 50000\n10 2 50000\n",
    ),
    (
        "the next sync, at the clock end",
        |tape| {
            tape.ticks(10);
            tape.sync(0x08);
        },
        "8 2 50000\n10 2 50000\n",
    ),
    (
        "the next sync on the other port",
        |tape| {
            tape.ticks(9);
            tape.say(2, &speech::sync(FIRST, 0x08));
        },
        "8 2 50000\n10 2 50000\n",
    ),
    (
        "the next sync of another concentrator",
        |tape| {
            tape.ticks(9);
            tape.sync_of(SECOND, 0x08);
        },
        "8 2 50000\n10 2 50000\n",
    ),
    (
        "BAD lines before the next sync",
        |tape| {
            tape.line("");
            tape.line("T 0");
            tape.line(&"1".repeat(1201));
            tape.ticks(9);
            tape.sync(0x08);
        },
        "8 2 50000\n13 2 50000\n",
    ),
    (
        "a lost cycle",
        |tape| {
            tape.ticks(19);
            tape.sync(0x09);
        },
        "8 2 50000\n10 2 50000\n",
    ),
    (
        "muted",
        |tape| {
            tape.write(0x25, &[4]);
            tape.read(1, 0x10);
            assign_again(tape);
            tape.ticks(9);
            tape.sync(0x08);
            tape.read(1, 0x10);
        },
        "8 2 50000\n13 0 0\n",
    ),
    (
        "muted for a while",
        |tape| {
            tape.write(0x25, &[4]);
            tape.read(1, 0x10);
            tape.write(0x25, &[0]);
            tape.read(1, 0x10);
        },
        "8 4 30000\n",
    ),
    (
        "another TCYC, read, and the next sync in fallback",
        |tape| {
            tape.write(0x17, &[0xAA]);
            tape.write(0x18, &[1]);
            tape.read(1, 0x10);
            tape.sync(0x20);
        },
        "8 4 30000\n12 24 2000\n",
    ),
    (
        "a TCYC that RUN does not accept",
        |tape| {
            tape.write(0x18, &[1]);
            tape.ticks(9);
            tape.sync(0x08);
        },
        "8 2 50000\n11 2 50000\n",
    ),
    (
        "SZ_REF 0",
        |tape| {
            tape.write(0x17, &[0xAA]);
            tape.write(0x1D, &[0]);
            tape.sync(0x20);
        },
        "8 2 50000\n11 1 90000\n",
    ),
    (
        "SZ_REF 255",
        |tape| {
            tape.write(0x17, &[0xAA]);
            tape.write(0x1C, &[0, 255]);
            tape.sync(0x20);
        },
        "8 2 50000\n11 1 90000\n",
    ),
    (
        "AD_REF + SZ_REF 257",
        |tape| {
            tape.write(0x17, &[0xAA]);
            tape.write(0x1C, &[0xF9, 8]);
            tape.sync(0x20);
        },
        "8 2 50000\n11 1 90000\n",
    ),
    (
        "four bytes that need stuffing",
        |tape| {
            tape.write(0x80, &[0x7D, 0x7E, 0x7E, 0x7D]);
            tape.read(4, 0x80);
        },
        "8 4 100000\n",
    ),
];

fn assign_again(tape: &mut Tape) {
    let assignment = SidAssignment {
        src: FIRST,
        sec: 9,
        mac: 1,
        sid: OWN,
    };
    tape.say(1, &speech::sid(BROADCAST, assignment));
}

pub fn run(tally: &mut Tally) {
    example(tally);
    for script in NO_CYCLE {
        tally.check(printed(script.as_bytes()).is_empty(), "no cycle, no line");
    }
    for (what, play, expected) in BY_HAND {
        by_hand(tally, what, play, expected);
    }
    for tcyc in 1..=0xFF {
        division(tally, tcyc);
    }
    for seed in 21..27 {
        let script = generate::loads(seed, 700);
        traced(tally, &script, &format!("line load, seed {seed}"));
    }
    traced(tally, &generate::loads(16, 8000), "the stored line load");
    traced(tally, &generate::ring(2000), "the line load of a ring");
}

pub fn printed(script: &[u8]) -> String {
    String::from_utf8(fuzz::line_load(script)).expect("text")
}

/// With and without the last LF; and each line of it lost.
fn example(tally: &mut Tally) {
    let cut = EXAMPLE.strip_suffix('\n').unwrap_or(EXAMPLE);
    for script in [EXAMPLE, cut] {
        let right = printed(script.as_bytes()) == "3 0 490000\n";
        tally.check(right, "the example of the decisions");
    }
    let lost = ["", "", "", "3 0 280000\n", "3 0 490000\n"];
    for (place, expected) in (1..).zip(lost) {
        let mut lines: Vec<&str> = EXAMPLE.lines().collect();
        lines.remove(place - 1);
        let what = format!("the example without line {place}");
        tally.check(printed(lines.join("\n").as_bytes()) == expected, &what);
    }
}

/// The first cycle has TCYC 255, which a write changes within it.
fn by_hand(tally: &mut Tally, what: &str, play: Play, expected: &str) {
    let mut tape = Tape::running();
    play(&mut tape);
    let printed = printed(&fuzz::text(&tape.lines));
    let right = printed == format!("3 0 290000\n{expected}");
    tally.check(right, &format!("line load by hand: {what}: {printed:?}"));
}

/// The quotient is how often the divisor can be taken away, the remainder what is left then.
fn division(tally: &mut Tally, tcyc: u8) {
    let divisor = tcyc as u64 * 12_000;
    let mut right = true;
    for wire_bytes in (0..400).chain([545, 1_200, 1_201, 34_880, 545_000_000]) {
        let cycle = Cycle {
            first: 1,
            tcyc,
            wire_bytes,
        };
        let (quotient, remainder) = (cycle.quotient(), cycle.remainder());
        let dividend = wire_bytes * 10_000;
        right &= quotient * divisor + remainder == dividend && remainder < divisor;
        if wire_bytes < 400 {
            let (mut times, mut left) = (0, dividend);
            while left >= divisor {
                (times, left) = (times + 1, left - divisor);
            }
            right &= (times, left) == (quotient, remainder);
        }
    }
    tally.check(right, &format!("the division, TCYC {tcyc}"));
}

/// The same numbers from the text of a trace: the digits of the replies, and register 18h.
fn traced(tally: &mut Tally, script: &[u8], what: &str) {
    let traced = String::from_utf8(fuzz::trace(script)).expect("text");
    let mut cycles: Vec<(usize, u64, u64)> = Vec::new();
    let lines = script
        .split(|&byte| byte == b'\n')
        .zip(traced.lines().skip(1));
    for (number, (line, traced)) in (1..).zip(lines) {
        let [_, answer, _, _, reply, registers] = traced.split(' ').collect::<Vec<_>>()[..] else {
            continue;
        };
        if answer == "0" && is_sync(line) {
            let tcyc = hex::decode(&registers.as_bytes()[0x30..0x32]).expect("two digits")[0];
            cycles.push((number, tcyc as u64, 0));
        }
        if let (Some((_, _, digits)), true) = (cycles.last_mut(), reply != "-") {
            *digits += reply.len() as u64;
        }
    }
    let expected = cycles.into_iter().map(|(number, tcyc, digits)| {
        let (dividend, divisor) = (digits / 2 * 10 * 1_000, tcyc * 12_000);
        format!("{number} {} {}\n", dividend / divisor, dividend % divisor)
    });
    let right = printed(script) == expected.collect::<String>();
    tally.check(right, &format!("{what}, from its trace"));
}

fn is_sync(line: &[u8]) -> bool {
    match parse(line) {
        Some(Line::Frame { body, .. }) => {
            frame::read(&body).is_ok_and(|read| matches!(read.frame, Frame::Sync { .. }))
        }
        _ => false,
    }
}
