//! What the terminals show after scripts by hand, and that the watcher works out the same.

use super::module::SECOND;
use super::{programs, Tally};
use crate::frame::Head;
use crate::generate::speech;
use crate::hex;
use crate::module::Fixed;
use crate::strike::{judge, Printed, Terminals};
use crate::tape::Tape;

/// A script, the answer of its last line, the mode then, and the bytes that are not 00h: from which terminal on, how
/// many, and the byte.
type Case = (
    &'static str,
    fn() -> Tape,
    (u8, bool),
    &'static [(usize, usize, u8)],
);

const CASES: [Case; 16] = [
    ("RUN entered", Tape::running, (0, true), &[]),
    ("the whole image", whole_image, (0, true), &[(0, 64, 0x11)]),
    (
        "parts of it over that",
        parts,
        (0, true),
        &[(0, 16, 0x11), (16, 3, 0x22), (19, 44, 0x11), (63, 1, 0x33)],
    ),
    ("00h over a byte", zero_over, (0, true), &[(1, 63, 0x11)]),
    ("an order", order, (0, false), &[]),
    ("an order, then RUN again", order_and_run, (0, true), &[]),
    (
        "and another byte written",
        written_anew,
        (0, true),
        &[(5, 1, 0x44)],
    ),
    ("many ticks in one line", silence, (0, false), &[]),
    (
        "ticks that keep RUN",
        few_ticks,
        (0, true),
        &[(0, 64, 0x11)],
    ),
    ("a wrong cycle", wrong_cycle, (12, false), &[]),
    (
        "two bytes at BFh",
        over_the_end,
        (16, true),
        &[(0, 64, 0x11)],
    ),
    ("a write in fallback", in_fallback, (16, false), &[]),
    (
        "a copy with other data",
        late_copy,
        (13, true),
        &[(0, 64, 0x11)],
    ),
    (
        "a write of a deposed one",
        deposed,
        (10, true),
        &[(0, 64, 0x11)],
    ),
    ("a read of the outputs", read, (0, true), &[(0, 64, 0x11)]),
    (
        "a write to the counters",
        counters,
        (0, true),
        &[(0, 64, 0x11)],
    ),
];

pub fn run(tally: &mut Tally) {
    for fixed in [Fixed::DOORS, Fixed::LIGHTING] {
        for (what, tape, end, lit) in CASES {
            let what = format!("terminals, limit {}: {what}", fixed.limit);
            shown(tally, fixed, &what, &tape(), end, lit);
        }
    }
    each_terminal(tally);
    by_the_sentence(tally);
}

fn shown(
    tally: &mut Tally,
    fixed: Fixed,
    what: &str,
    tape: &Tape,
    (answer, running): (u8, bool),
    lit: &[(usize, usize, u8)],
) {
    let mut wanted = [0; 64];
    for &(from, count, byte) in lit {
        wanted[from..from + count].fill(byte);
    }
    let printed = programs::right(fixed).trace.print(&tape.lines);
    let printed = printed.expect("memory");
    let last = tape.lines.len() - 1;
    let right = Printed::read(&printed, tape.lines.len()).is_ok_and(|trace| {
        let registers = trace.registers(last).unwrap_or([0xFF; 256]);
        trace.answer(last) == Some(answer)
            && trace.running(last) == Some(running)
            && registers[0x80..0xC0] == wanted
            && judge(&tape.lines, &trace).is_ok()
    });
    tally.check(right, what);
}

fn whole_image() -> Tape {
    let mut tape = Tape::running();
    tape.write(0x80, &[0x11; 64]);
    tape
}

fn parts() -> Tape {
    let mut tape = whole_image();
    tape.write(0x90, &[0x22; 3]);
    tape.write(0xBF, &[0x33]);
    tape
}

fn zero_over() -> Tape {
    let mut tape = whole_image();
    tape.write(0x80, &[0x00]);
    tape
}

fn order() -> Tape {
    let mut tape = whole_image();
    tape.write(0x17, &[0xAA]);
    tape
}

fn order_and_run() -> Tape {
    let mut tape = order();
    tape.release();
    tape
}

fn written_anew() -> Tape {
    let mut tape = order_and_run();
    tape.write(0x85, &[0x44]);
    tape
}

fn silence() -> Tape {
    let mut tape = whole_image();
    tape.ticks(60_000);
    tape
}

fn few_ticks() -> Tape {
    let mut tape = whole_image();
    tape.ticks(19);
    tape
}

fn wrong_cycle() -> Tape {
    let mut tape = whole_image();
    tape.sync(0x40);
    tape
}

fn over_the_end() -> Tape {
    let mut tape = whole_image();
    tape.write(0xBF, &[0x55, 0x55]);
    tape
}

fn in_fallback() -> Tape {
    let mut tape = order();
    tape.write(0x80, &[0x66]);
    tape
}

fn late_copy() -> Tape {
    let mut tape = Tape::running();
    let copy = speech::write(0x90, tape.head(), 0x80, &[0x77; 64]);
    tape.write(0x80, &[0x11; 64]);
    tape.say(2, &copy);
    tape
}

fn deposed() -> Tape {
    let mut tape = whole_image();
    let src = SECOND;
    let head = Head { src, ..tape.head() };
    tape.say(1, &speech::write(0x90, head, 0x80, &[0x77]));
    tape
}

fn read() -> Tape {
    let mut tape = whole_image();
    tape.read(64, 0x80);
    tape
}

fn counters() -> Tape {
    let mut tape = whole_image();
    tape.write(0x1E, &[0xFF; 7]);
    tape
}

/// A trace in which one terminal shows another byte is found, whichever it is; another register is not the watcher's.
fn each_terminal(tally: &mut Tally) {
    let tape = parts();
    let text = programs::right(Fixed::DOORS).trace.print(&tape.lines);
    let text = text.expect("memory");
    for register in 0x70..0xD0 {
        let Ok(mut trace) = Printed::read(&text, tape.lines.len()) else {
            return tally.check(false, "a trace");
        };
        let place = trace.texts.len() - 2;
        let mut registers = trace.registers(place).unwrap_or([0; 256]);
        registers[register] ^= 0x80;
        let digits = trace.texts[place].len() - 512;
        trace.texts[place].truncate(digits);
        trace.texts[place].extend(hex::encode(&registers).bytes());
        let found = judge(&tape.lines, &trace).is_err();
        let terminal = (0x80..0xC0).contains(&register);
        tally.check(found == terminal, &format!("{register:02X}h shown wrongly"));
    }
}

/// The watcher goes by the sentence alone: whatever accepted write reaches a terminal, from wherever it starts.
fn by_the_sentence(tally: &mut Tally) {
    let mut tape = Tape::running();
    for (add, length) in [(0x70, 0x20), (0xB8, 0x48), (0x00, 0x80), (0xC0, 0x40)] {
        tape.lines.clear();
        tape.write(add, &vec![0x5A; length]);
        for (answer, before, after) in [
            (0, true, true),
            (16, true, true),
            (0, true, false),
            (0, false, true),
            (0, false, false),
        ] {
            let mut terminals = Terminals::power_up();
            terminals.after(b"T 1", 0, before);
            terminals.after(&tape.lines[0], answer, after);
            let covered = |terminal: usize| {
                let register = 0x80 + terminal;
                let reached = (add as usize..add as usize + length).contains(&register);
                reached && answer == 0 && before && after
            };
            let right = (0..64).all(|it| (terminals.shown[it] == 0x5A) == covered(it));
            tally.check(right, &format!("{length} bytes at {add:02X}h, {answer}"));
        }
    }
}
