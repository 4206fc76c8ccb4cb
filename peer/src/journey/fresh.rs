//! A fresh journey for the fuzzer: often about as long as one or two stretches, of few counts, so that sums are often the
//! same, and sometimes with lines of another form.

use crate::generate::random::Random;
use crate::worst::STRETCH;

/// Lines of another form, most of them nearly a count.
const BAD: [&[u8]; 22] = [
    b"",
    b"\r",
    b"256",
    b"260",
    b"300",
    b"999",
    b"1000",
    b"00",
    b"007",
    b"01",
    b"-1",
    b"+1",
    b" 1",
    b"1 ",
    b"1.0",
    b"x",
    b"1x",
    b"\0",
    b"\xFF",
    b"1\t",
    b"4294967297",
    b"2 5",
];

/// One journey in this many has lines of another form.
const BAD_ONE_IN: usize = 5;

/// Its lines, without their LFs.
pub fn fresh(random: &mut Random) -> Vec<Vec<u8>> {
    let length = length(random);
    let counts = counts(random, length);
    let mut lines: Vec<Vec<u8>> = counts
        .iter()
        .map(|count| count.to_string().into_bytes())
        .collect();
    if !lines.is_empty() && random.one_in(BAD_ONE_IN) {
        let from = match random.one_in(2) && lines.len() > STRETCH {
            true => STRETCH,
            false => 0,
        };
        for _ in 0..1 + random.below(3) {
            spoil(random, &mut lines[from..]);
        }
    }
    lines
}

fn length(random: &mut Random) -> usize {
    let about = |random: &mut Random, length| length - 3 + random.below(7);
    match random.below(12) {
        0 => random.below(5),
        1 => random.below(STRETCH),
        2..=5 => about(random, STRETCH),
        6..=7 => about(random, 2 * STRETCH),
        8..=10 => STRETCH + random.below(STRETCH),
        _ => 2 * STRETCH + random.below(2 * STRETCH),
    }
}

/// Runs of the journey's own few counts, blocks of them again; sometimes one count for all lines, or counts that only grow
/// or fall.
fn counts(random: &mut Random, length: usize) -> Vec<u8> {
    let any = [random.byte(), random.byte(), random.byte()];
    let few: &[u8] = match random.below(5) {
        0 => &[0, 1],
        1 => &[254, 255],
        2 => &[0, 255],
        3 => &any,
        _ => &any[..1],
    };
    let mut counts: Vec<u8> = Vec::new();
    while counts.len() < length {
        let run = 1 + random.below(400);
        match random.below(4) {
            0 => counts.extend(vec![random.pick(few); run]),
            1 if counts.len() > run => {
                let from = random.below(counts.len() - run);
                counts.extend_from_within(from..from + run);
            }
            2 if counts.len() >= STRETCH => {
                counts.extend_from_within(counts.len() - STRETCH..);
            }
            _ => counts.extend((0..run).map(|_| random.pick(few))),
        }
    }
    counts.truncate(length);
    match random.below(10) {
        0 => counts.sort(),
        1 => counts.sort_by(|one, other| other.cmp(one)),
        _ => {}
    }
    counts
}

/// One of these lines, or all from one on.
fn spoil(random: &mut Random, lines: &mut [Vec<u8>]) {
    let place = random.below(lines.len());
    if random.one_in(4) {
        lines[place..].iter_mut().for_each(|line| line.push(b'\r'));
        return;
    }
    lines[place] = match random.below(4) {
        0 => vec![random.pick(b"0123456789"); 4 + random.below(2000)],
        _ => random.pick(&BAD).to_vec(),
    };
}
