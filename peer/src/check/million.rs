//! The lines that the load program reads: to the millionth, and not one more.

use super::module::FIRST;
use super::Tally;
use crate::fuzz;
use crate::generate::{speech, Ring};
use crate::hex;
use crate::load::{self, Course, LINES_MAX};
use crate::million::case::{self, BAD_LAST, WOULD_OPEN, WOULD_SEND};
use crate::million::{cases, common, print, Compared};
use crate::tape::Tape;
use std::io::{self, Read};

/// In the place of a million.
const FEW: usize = 400;

pub fn run(tally: &mut Tally) {
    few(tally);
    last_line(tally);
    no_more_is_read(tally);
    crowded(tally);
    compared(tally);
}

/// Every script as if so few lines were read: one line more or less is noticed where it must be.
fn few(tally: &mut Tally) {
    let ring = Ring::new();
    let shared = ring.text(0..common(&ring, FEW));
    let mut start = Course::power_up();
    start.play(&shared[..], FEW).expect("memory");
    for case in cases(&ring, FEW) {
        let [fewer, right, more] =
            [FEW - 1, FEW, FEW + 1].map(|most| print(&start, &case, most).expect("memory"));
        let whole = [&shared[..], &case.tail].concat();
        let mut course = Course::power_up();
        course.play(&whole[..], FEW).expect("memory");
        let name = case.name;
        let same = load::print(&course) == right && course.told.len() == FEW;
        tally.check(same, &format!("{name}: the lines in common played once"));
        // Where the next line would count, the last one does not.
        let next_counts = [WOULD_OPEN, WOULD_SEND, BAD_LAST].contains(&name);
        let (less, more) = (fewer != right, more != right);
        tally.check(less != next_counts, &format!("{name}: one line less"));
        tally.check(more == next_counts, &format!("{name}: one line more"));
    }
}

/// A sync at the end of so many lines, of which all but the first are empty.
fn ends_with_sync(count: usize) -> Vec<u8> {
    let mut tape = Tape::running();
    tape.ticks(9);
    let sync = hex::encode(&speech::sync(FIRST, 0x08).body());
    let empty = vec![b'\n'; count - 1 - tape.lines.len()];
    [
        fuzz::text(&tape.lines),
        empty,
        format!("1 {sync}").into_bytes(),
    ]
    .concat()
}

/// The program itself, about the millionth line.
fn last_line(tally: &mut Tally) {
    let start = "3 0 290000\n8 2 50000\n";
    for (count, end) in [
        (LINES_MAX - 1, "999999 2 50000\n"),
        (LINES_MAX, "1000000 2 50000\n"),
        (LINES_MAX + 1, ""),
        (LINES_MAX + 2, ""),
    ] {
        for lf in ["", "\n"] {
            let script = [&ends_with_sync(count)[..], lf.as_bytes()].concat();
            let right = fuzz::line_load(&script) == format!("{start}{end}").into_bytes();
            tally.check(right, &format!("a sync in line {count}, {lf:?} behind it"));
        }
    }
}

/// An input that must not be asked for more.
struct Broken;

impl Read for Broken {
    fn read(&mut self, _: &mut [u8]) -> io::Result<usize> {
        Err(io::Error::other("read past the millionth line"))
    }
}

/// Behind the millionth line more may come without end, or nothing that can be read.
fn no_more_is_read(tally: &mut Tally) {
    let script = [ends_with_sync(LINES_MAX), b"\n".to_vec()].concat();
    let expected = fuzz::line_load(&script);
    let mut printed = Vec::new();
    let outcome = load::run(script.chain(io::repeat(b'\n')), &mut printed);
    tally.check(outcome.is_ok() && printed == expected, "lines without end");
    let mut printed = Vec::new();
    let outcome = load::run(script.chain(Broken), &mut printed);
    tally.check(
        outcome.is_ok() && printed == expected,
        "nothing is asked for",
    );
    let mut printed = Vec::new();
    let outcome = load::run(script[..script.len() - 1].chain(Broken), &mut printed);
    tally.check(outcome.is_err(), "without LF the millionth line goes on");
}

/// One cycle, more than 32 bits.
fn crowded(tally: &mut Tally) {
    let script = case::crowded(&Ring::new());
    let mut course = Course::power_up();
    course.play(&script[..], LINES_MAX).expect("memory");
    let dividends: Vec<u64> = load::cycles(&course.told)
        .map(|cycle| cycle.dividend())
        .collect();
    let right = dividends.len() == 1 && dividends[0] > 1 << 32;
    tally.check(right, case::CROWDED);
}

/// What counts as the same.
fn compared(tally: &mut Tally) {
    for (own, other, went_on, right) in [
        ("1 0 0\n", "1 0 0\n", None, true),
        ("", "", None, true),
        ("1 0 0\n", "", None, false),
        ("", "1 0 0\n", None, false),
        ("1 0 0\n", "1 0 0", None, false),
        ("1 0 0\n", "1 0 1\n", None, false),
        ("1 0 0\n", "1 0 0\n2 0 0\n", None, false),
        ("1 0 0\n", "1 0 0\n", Some("it went on"), false),
    ] {
        let one = Compared::of("", own.as_bytes(), other.as_bytes(), went_on);
        let what = format!("{own:?} and {other:?}, {went_on:?}");
        tally.check(one.wrong.is_none() == right, &what);
    }
}
