//! The journeys themselves: the named ones can be stored, the seeded one is a good case, and fresh ones bring up every
//! kind. And what counts as the same, and what is shown of a difference.

use super::Tally;
use crate::beside::{Compared, Group, Report};
use crate::fuzz::{self, Difference, Ending, Kind};
use crate::journey::{edges, journey};
use crate::worst::{read, sums, worst};
use std::collections::BTreeSet;

/// The seed and the lines of the stored journey.
const STORED: (u64, usize) = (17, 20_000);

/// The bytes of all named journeys.
const STORED_BYTES_MAX: usize = 300_000;

/// At least so many of 400 fresh journeys are of each kind.
const FRESH: [(&str, usize); 17] = [
    ("numbers", 150),
    ("SHORT", 40),
    ("BAD up to line 1,000", 30),
    ("BAD after line 1,000", 10),
    ("without lines", 2),
    ("last line without LF", 40),
    ("with a CR", 10),
    ("of 999 lines", 10),
    ("of 1,000 lines", 10),
    ("of 1,001 lines", 10),
    ("all counts equal", 20),
    ("several stretches with the largest sum", 50),
    ("two such stretches apart", 5),
    ("largest at the first stretch of several", 20),
    ("largest at the last stretch of several", 10),
    ("largest between the first and the last stretch", 50),
    ("printed something else", 0),
];

pub fn run(tally: &mut Tally) {
    named(tally);
    lengths(tally);
    for lines in [STORED.1, 100_000, 300_000] {
        seeded(tally, lines);
    }
    fresh(tally);
    compared(tally);
    shown(tally);
}

fn named(tally: &mut Tally) {
    let edges = edges();
    let names: BTreeSet<&String> = edges.iter().map(|edge| &edge.name).collect();
    tally.check(names.len() == edges.len(), "names of journeys differ");
    let plain = |byte: u8| byte.is_ascii_lowercase() || byte.is_ascii_digit() || byte == b'-';
    let files = names.iter().all(|name| name.bytes().all(plain));
    tally.check(files, "names of journeys can be names of files");
    let bytes: usize = edges.iter().map(|edge| edge.journey.len()).sum();
    tally.check(bytes < STORED_BYTES_MAX, "the named journeys are small");
}

fn lengths(tally: &mut Tally) {
    for lines in [0, 1, 999, 1_000, 1_001, 9_999, 10_000, 10_001, 20_000] {
        let counts = read(&journey(3, lines)[..]).expect("memory");
        let right = counts.is_ok_and(|counts| counts.len() == lines);
        tally.check(right, &format!("a seeded journey of {lines} lines"));
    }
}

/// The largest sum comes often, overlapping and apart, and neither first nor last; before it one that is less by one.
fn seeded(tally: &mut Tally, lines: usize) {
    let counts = read(&journey(STORED.0, lines)[..]).expect("memory");
    let counts = counts.unwrap_or_default();
    let all: BTreeSet<u8> = counts.iter().copied().collect();
    tally.check(all.len() == 256, "a seeded journey has every count");
    let Some(worst) = worst(&counts) else {
        return tally.check(false, "a seeded journey has stretches");
    };
    let sums = sums(&counts);
    let places = (0..sums.len()).filter(|&place| sums[place] == worst.sum);
    let places: Vec<usize> = places.collect();
    let gaps: Vec<usize> = places.windows(2).map(|two| two[1] - two[0]).collect();
    let apart = gaps.iter().filter(|&&gap| gap > 1_000).count();
    let overlapping = gaps.iter().filter(|&&gap| gap == 1).count();
    let (first, last) = (worst.first, places.last().map_or(0, |last| last + 1));
    let inside = 2_000 < first && last + 2_000 < sums.len();
    let lesser = sums[..first].contains(&(worst.sum - 1));
    let right = apart == 2 && overlapping >= 3 * 40 && inside && lesser;
    tally.check(
        right,
        &format!("where a seeded journey of {lines} lines is worst"),
    );
}

fn fresh(tally: &mut Tally) {
    let right = |text: &[u8]| Ok(fuzz::worst_thousand(text));
    let report = fuzz::compare(&fuzz::WORST, 400, 1, right).expect("memory");
    for (what, least) in FRESH {
        let count = report.counts.get(&format!("journeys, {what}"));
        let count = count.copied().unwrap_or(0);
        let right = count >= least && (least > 0 || count == 0);
        tally.check(right, &format!("fresh journeys, {what}: {count}"));
    }
}

fn compared(tally: &mut Tally) {
    for (own, other, right) in [
        ("0 1\n", "0 1\n", true),
        ("0 1\n", "0 1", false),
        ("0 1\n", "0 2\n", false),
        ("0 1\n", "", false),
        ("SHORT\n", "SHORT\nSHORT\n", false),
    ] {
        let one = || Compared::of("", own.as_bytes(), other.as_bytes());
        let report = Report {
            noun: "journeys",
            groups: vec![Group::new("", vec![one(), one()])],
        };
        tally.check(report.right() == right, &format!("{own:?} and {other:?}"));
    }
    let report = Report {
        noun: "journeys",
        groups: vec![Group::new("", Vec::new())],
    };
    tally.check(!report.right(), "a group without journeys");
}

/// Many lines that are the same are shown as one in a journey, and one by one in a script.
fn shown(tally: &mut Tally) {
    for (kind, lines) in [
        (Kind::Journeys, "7    (6 times)\n"),
        (Kind::Scripts, "7\n7\n7\n7\n7\n7\n"),
    ] {
        let difference = Difference {
            kind,
            seed: 1,
            lines_before: 9,
            script: vec![b"7".to_vec(); 6],
            ending: Ending::Lf,
            own: b"a\n".to_vec(),
            other: b"b\n".to_vec(),
        };
        let text =
            format!("seed 1: 9 lines, shortened to 6:\n{lines}this program:\na\nthe other:\nb\n");
        let right = difference.to_string() == text;
        tally.check(right, &format!("lines that are the same, of {kind:?}"));
    }
}
