//! Journey programs that are wrong in one way each: a stored journey shows it, or, about the millionth line, one that is
//! made.

use super::running::{print, Rules, RIGHT};
use super::worst_faults::{OF_FAULTS, OF_FORMS, OF_LINES, OF_THE_MILLIONTH};
use super::Tally;
use crate::fuzz::{self, worst_thousand};
use crate::journey;

pub type Change = fn(&mut Rules);

/// Which lines are summed, and when.
const OF_STRETCHES: [(&str, Change); 17] = [
    ("stretches have 999 lines", |rules| {
        rules.leaves = 999;
        rules.compared = |number, _| number >= 999;
        rules.print = |sum, last| format!("{sum} {}\n", last - 998);
    }),
    ("stretches have 1,001 lines", |rules| {
        rules.leaves = 1_001;
        rules.compared = |number, of| number >= 1_001 || number == of;
        rules.print = |sum, last| format!("{sum} {}\n", (last - 1_000).max(1));
    }),
    ("the oldest count is never taken off", |rules| {
        rules.leaves = usize::MAX
    }),
    ("the oldest count is taken off one late", |rules| {
        rules.leaves = 1_001
    }),
    ("the oldest count is taken off one early", |rules| {
        rules.leaves = 999
    }),
    ("the first 999 lines count as a stretch", |rules| {
        rules.compared = |number, _| number >= 999
    }),
    ("the sum of any start counts", |rules| {
        rules.compared = |_, _| true
    }),
    ("stretches do not overlap", |rules| {
        rules.compared = |number, _| number % 1_000 == 0
    }),
    ("every second stretch is left out", |rules| {
        rules.compared = |number, _| number >= 1_000 && number % 2 == 0
    }),
    ("the first stretch is left out", |rules| {
        rules.compared = |number, of| number > 1_000 || number == of
    }),
    ("the last stretch is left out", |rules| {
        rules.compared = |number, of| number >= 1_000 && (number < of || of == 1_000)
    }),
    ("only the first stretch is looked at", |rules| {
        rules.compared = |number, _| number == 1_000
    }),
    ("only the last stretch is looked at", |rules| {
        rules.compared = |number, of| number == of
    }),
    ("1,000 lines are SHORT", |rules| rules.least = 1_001),
    ("999 lines are not SHORT", |rules| {
        rules.least = 999;
        rules.compared = |number, of| number >= 1_000 || number == of;
    }),
    ("nothing is SHORT", |rules| rules.least = 0),
    ("an empty journey is not SHORT", |rules| {
        rules.fault = |judged| match judged {
            [] => Some(String::new()),
            _ => (RIGHT.fault)(judged),
        }
    }),
];

/// The sums, which of them is taken, and what is printed of it.
const OF_SUMS: [(&str, Change); 18] = [
    ("the latest stretch is taken", |rules| {
        rules.better = |sum, before| sum >= before
    }),
    ("the smallest sum is taken", |rules| {
        rules.better = |sum, before| sum < before
    }),
    ("a sum must be larger by two", |rules| {
        rules.better = |sum, before| sum > before + 1
    }),
    ("the largest sum starts as 0, at line 0", |rules| {
        rules.start = Some((0, 999))
    }),
    ("the sum has 8 bits", |rules| {
        rules.sum = |sum| sum % (1 << 8)
    }),
    ("the sum has 16 bits", |rules| {
        rules.sum = |sum| sum % (1 << 16)
    }),
    ("the sum has 17 bits", |rules| {
        rules.sum = |sum| sum % (1 << 17)
    }),
    ("the sum stops at 65,535", |rules| {
        rules.sum = |sum| sum.min(65_535)
    }),
    ("sums are compared in 16 bits", |rules| {
        rules.better = |sum, before| sum as u16 > before as u16
    }),
    ("the number is that of the last line", |rules| {
        rules.print = |sum, last| format!("{sum} {last}\n")
    }),
    ("lines are counted from 0", |rules| {
        rules.print = |sum, last| format!("{sum} {}\n", last - 1_000)
    }),
    ("the number is one too large", |rules| {
        rules.print = |sum, last| format!("{sum} {}\n", last - 998)
    }),
    ("the number has 8 bits", |rules| {
        rules.print = |sum, last| format!("{sum} {}\n", (last - 999) % 256)
    }),
    ("number and sum change places", |rules| {
        rules.print = |sum, last| format!("{} {sum}\n", last - 999)
    }),
    ("the mean is printed", |rules| {
        rules.print = |sum, last| format!("{} {}\n", sum / 1_000, last - 999)
    }),
    ("two lines are printed", |rules| {
        rules.print = |sum, last| format!("{sum}\n{}\n", last - 999)
    }),
    ("no LF is printed", |rules| {
        rules.print = |sum, last| format!("{sum} {}", last - 999)
    }),
    ("SHORT has a number", |rules| rules.short = "SHORT 0\n"),
];

pub fn run(tally: &mut Tally) {
    let stored = journey::edges();
    let stored = stored.iter().map(|edge| &edge.journey[..]).collect();
    let wrong = [
        &OF_STRETCHES[..],
        &OF_SUMS,
        &OF_FAULTS,
        &OF_FORMS,
        &OF_LINES,
    ];
    noticed(tally, stored, &wrong.concat());
    let made = about_the_millionth();
    noticed(
        tally,
        made.iter().map(Vec::as_slice).collect(),
        &OF_THE_MILLIONTH,
    );
    short(tally);
}

/// The right rules print the same of all journeys, and each wrong one another thing of at least one.
fn noticed(tally: &mut Tally, journeys: Vec<&[u8]>, wrong: &[(&str, Change)]) {
    let right = journeys.iter().map(|journey| worst_thousand(journey));
    let right: Vec<Vec<u8>> = right.collect();
    let differs = |rules: &Rules| {
        let mut pairs = journeys.iter().zip(&right);
        pairs.any(|(journey, right)| print(rules, journey).as_bytes() != right)
    };
    let same = !differs(&RIGHT);
    tally.check(same, "journeys about the edges, by a running sum");
    for (what, change) in wrong {
        let mut rules = RIGHT;
        change(&mut rules);
        let what = format!("a journey program in which {what}");
        tally.check(differs(&rules), &what);
    }
}

fn about_the_millionth() -> Vec<Vec<u8>> {
    let [million, fewer] = [1_000_000, 999_999].map(|lines| b"1\n".repeat(lines));
    vec![
        [&million[..], b"1"].concat(),
        [&million[..], b"x\n"].concat(),
        [&million[..], b"\n"].concat(),
        [&fewer[..], b"x\n1\n"].concat(),
        [&million[..140_000], b"2\n", &million[..100]].concat(),
        [&million[..140_000], b"x\n"].concat(),
        million,
    ]
}

/// Fresh journeys notice one too, and the shortest that shows it is about one stretch long.
fn short(tally: &mut Tally) {
    let mut wrong = RIGHT;
    OF_SUMS[0].1(&mut wrong);
    let other = |text: &[u8]| Ok(print(&wrong, text).into_bytes());
    let report = fuzz::compare(&fuzz::WORST, 20, 31, other).expect("memory");
    let right = report.difference.is_some_and(|found| {
        let zeros = found.script.iter().filter(|line| line == &b"0");
        found.script.len() == 1_001 && zeros.count() == 1_001 && found.own != found.other
    });
    tally.check(right, "the shortest journey whose latest stretch is taken");
    let right = |text: &[u8]| Ok(print(&RIGHT, text).into_bytes());
    let report = fuzz::compare(&fuzz::WORST, 400, 31, right).expect("memory");
    let same = report.difference.is_none() && report.scripts == 400;
    tally.check(same, "fresh journeys, by a running sum");
}
