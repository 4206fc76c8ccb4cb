//! Flipped bits: which ones are chosen, the bodies that are damaged, the short way beside the
//! reader, what a run counts and must notice, and the writes that are searched for.

use super::Tally;
use crate::body;
use crate::cases::{fields_of, Program, KINDS};
use crate::flips::search::{self, Pair};
use crate::flips::{self, bodies, choice, quick, solve, Good, Place, Row};
use crate::frame::{self, Frame, Received};
use crate::generate;
use crate::generate::random::Random;
use crate::hex;
use crate::refusal::Refusal;
use std::collections::BTreeSet;

pub fn run(tally: &mut Tally) {
    choices(tally);
    made(tally);
    short_way(tally);
    counted(tally);
    noticed(tally);
    polynomial(tally);
    roots(tally);
    for seed in 1..=8 {
        searched(tally, seed);
    }
}

fn distance(one: &[u8], other: &[u8]) -> u32 {
    let pairs = one.iter().zip(other);
    pairs.map(|(a, b)| (a ^ b).count_ones()).sum()
}

/// As many different choices as there are, each with so many flips, and nothing left flipped.
fn choices(tally: &mut Tally) {
    let before = [0x00, 0x7D, 0x7E, 0xFF, 0xA5];
    let mut bytes = before;
    let mut seen = [(); 5].map(|_| BTreeSet::new());
    choice::every_one(&mut bytes, |damaged| {
        seen[1].insert(damaged.to_vec());
    });
    choice::every_two(&mut bytes, |damaged| {
        seen[2].insert(damaged.to_vec());
    });
    let random = &mut Random::new(31);
    for flips in [3, 4] {
        choice::some(random, flips, 2000, &mut bytes, |damaged| {
            seen[flips].insert(damaged.to_vec());
        });
    }
    for (flips, least) in [(1, 40), (2, 40 * 39 / 2), (3, 1500), (4, 1500)] {
        let chosen = &seen[flips];
        let all = chosen
            .iter()
            .all(|damaged| distance(&before, damaged) == flips as u32);
        let enough = chosen.len() >= least && (flips > 2 || chosen.len() == least);
        tally.check(all && enough, &format!("choices of {flips} flips"));
    }
    tally.check(bytes == before, "no flip is left");
}

/// All kinds, each read as its kind; long ones, stuffed ones, and stuffed check bytes.
fn made(tally: &mut Tally) {
    let random = &mut Random::new(32);
    let (mut long, mut stuffed, mut check) = (0, 0, 0);
    for place in 0..1300 {
        let kind = (place % KINDS as usize) as u8;
        let good = bodies::any(random, kind);
        let read = frame::read(&good.line);
        let same = read.is_ok_and(|read| fields_of(&read.frame).0 == kind);
        let mut line = [0; 543];
        let length = flips::stuff_anew(&good.plain, &mut line);
        let anew = line[..length] == good.line;
        tally.check(same && anew, &format!("body {place} of kind {kind:02X}"));
        long += (good.plain.len() > 100) as usize;
        stuffed += (good.line.len() > good.plain.len()) as usize;
        let tail = &good.plain[good.plain.len() - 2..];
        check += tail.iter().any(|byte| [0x7D, 0x7E].contains(byte)) as usize;
    }
    tally.check(long >= 50, &format!("{long} long bodies"));
    tally.check(stuffed >= 500, &format!("{stuffed} stuffed bodies"));
    tally.check(check >= 5, &format!("{check} bodies with a stuffed FCS"));
}

/// The cases for the reader of bodies, by the short way: each number comes, and is the reader's.
fn short_way(tally: &mut Tally) {
    let mut came = [0; 6];
    for case in generate::cases(Program::Body, 33, 3000) {
        let bytes = hex::decode(case.as_bytes()).unwrap_or_default();
        let Some((0, line)) = bytes.split_first() else {
            continue;
        };
        let number = body::read(line).map_or_else(Refusal::number, |_| 0);
        came[number as usize] += 1;
        let what = format!("the short way, {number} for {}", hex::encode(line));
        tally.check(quick::number(line) == number, &what);
    }
    let all = came.iter().all(|&count| count >= 20);
    tally.check(all, &format!("the short way, numbers 0 to 5: {came:?}"));
}

fn counted(tally: &mut Tally) {
    let report = flips::run(39, 34);
    tally.check(report.right() && report.bodies == 39, "a run of flips");
    for row in report.rows() {
        let what = format!("{:?}, {} flips", row.place, row.flips);
        let sum: u64 = row.numbers.iter().sum();
        tally.check(sum == row.tried && row.tried > 1000, &what);
        tally.check(row.asked >= row.tried / 101, &what);
        let few = row.place == Place::Bytes && row.flips < 4;
        let all_by_fcs = row.numbers[4] == row.tried;
        tally.check(all_by_fcs || !few, &what);
    }
    tally.check(report.bytes[2].tried == 39 * 2000, "2,000 threes a body");
    tally.check(report.wire[0].numbers[2] > 0, "flips break the stuffing");
    let text = report.to_string();
    tally.check(
        text.ends_with("39 bodies, seed 34: right\n"),
        "its last line",
    );
}

/// A body that is read must not come of few flips, unless its length changed on the wire; and
/// the short way must not say what the reader does not.
fn noticed(tally: &mut Tally) {
    let good = Good::of(0x21, &[0x08, 0xF0, 0x02, 0x01, 0x80]);
    let other = Good::of(0x22, &[0x08, 0xF0, 0x02, 0x01, 0x81]);
    let longer = Good::of(0x21, &[0x08, 0xF0, 0x01, 0x01, 0x80, 0x55]);
    for (place, flips, allowed) in [
        (Place::Bytes, 1, false),
        (Place::Bytes, 2, false),
        (Place::Bytes, 3, false),
        (Place::Bytes, 4, true),
        (Place::Wire, 1, false),
        (Place::Wire, 2, true),
    ] {
        let what = format!("{place:?}, {flips} flips, a body that is read");
        let mut row = Row::new(place, flips);
        row.take(&good, &longer.line);
        tally.check(row.right() && row.same_length == 0, &what);
        row.take(&good, &other.line);
        let counts = (row.numbers[0], row.same_length, row.safe);
        tally.check(row.right() == allowed && counts == (2, 1, 0), &what);
        let mut row = Row::new(place, flips);
        row.ask(&good, &good.line[1..], 0);
        tally.check(!row.right(), &format!("{what}: another number"));
    }
}

/// The four bits of the FCS polynomial, flipped together, leave an FCS that is right.
fn polynomial(tally: &mut Tally) {
    let good = Good::of(0x21, &[0x07, 0x10, 0x20, 0x30, 0x40, 0x50, 0x60]);
    let mut plain = good.plain.clone();
    for (place, bits) in [(3, 0x01), (4, 0x10), (5, 0x21)] {
        plain[place] ^= bits;
    }
    let mut line = [0; 543];
    let length = flips::stuff_anew(&plain, &mut line);
    let mut row = Row::new(Place::Bytes, 4);
    row.take(&good, &line[..length]);
    let read = (row.read_as_body(), row.numbers[8], row.tried) == (1, 1, 1);
    tally.check(read && row.right(), "flips that are the polynomial");
}

fn roots(tally: &mut Tally) {
    let low = |bits: u64| bits as u32 & 0xFF ^ 0xA5;
    tally.check(solve::root(8, 0x700, low) == Some(0x7A5), "a root");
    tally.check(solve::root(7, 0x00, low).is_none(), "no root in 7 bits");
    let mixed = |bits: u64| (bits ^ bits << 1 ^ bits >> 3) as u32 & 0xFFFF ^ 0x1234;
    let right = solve::root(20, 0, mixed).is_some_and(|root| mixed(root) == 0);
    tally.check(right, "a root of mixed bits");
}

fn searched(tally: &mut Tally, seed: u64) {
    for (pair, flips) in search::pairs(seed).iter().zip([1, 2]) {
        let what = format!("search, {flips} flips, seed {seed}");
        let Some(pair) = pair else {
            return tally.check(false, &what);
        };
        let right = pair.right() && pair.flips == flips;
        tally.check(right && distance(&pair.before, &pair.after) == flips, &what);
        let kept = match flips {
            1 => with_other_data(pair, seed),
            _ => with_another_head(pair, seed),
        };
        tally.check(kept == Some(flips), &format!("{what}, but for that"));
    }
}

/// The one flip does not ask what the data are: how many flips it takes with others.
fn with_other_data(pair: &Pair, seed: u64) -> Option<u32> {
    let [before, after] = read_both(pair)?;
    let random = &mut Random::new(!seed);
    let data: Vec<u8> = before.data.iter().map(|_| random.byte()).collect();
    let one = written(before.address, &before.frame, &data)?;
    let longer = [&after.data[..1], &data].concat();
    let other = written(after.address, &after.frame, &longer)?;
    (one.len() == other.len()).then(|| distance(&one, &other))
}

/// The two flips do not ask what stands before them, nor who is meant.
fn with_another_head(pair: &Pair, seed: u64) -> Option<u32> {
    let [before, after] = read_both(pair)?;
    let (Frame::SafeWrite { span, .. }, Frame::SafeWrite { mut head, .. }) =
        (before.frame, after.frame)
    else {
        return None;
    };
    head.dest ^= 0x5A_0F0F;
    head.cyc = seed as u8;
    let frame = Frame::SafeWrite { head, span };
    let one = written(0x90, &frame, &before.data)?;
    let other = written(0x90, &frame, &after.data)?;
    (one.len() == other.len()).then(|| distance(&one, &other))
}

fn read_both(pair: &Pair) -> Option<[Received; 2]> {
    let before = frame::read(&pair.before).ok()?;
    Some([before, frame::read(&pair.after).ok()?])
}

fn written(address: u8, frame: &Frame, data: &[u8]) -> Option<Vec<u8>> {
    let mut buffer = [0; 600];
    let length = frame::write(address, frame, data, &mut buffer).ok()?;
    Some(buffer[..length].to_vec())
}
