//! How long a script is, to the line and to the byte, and whether its last line has an LF.

use super::scatter;
use crate::generate::random::Random;
use crate::script::parse;

/// Lines and bytes of a script, 0 for as many as there are, and how often in a hundred.
const SIZES: [((usize, usize), usize); 15] = [
    ((0, 0), 66),
    ((199, 0), 3),
    ((200, 0), 7),
    ((201, 0), 4),
    ((202, 0), 1),
    ((450, 0), 1),
    ((0, 59_999), 2),
    ((0, 60_000), 4),
    ((0, 60_001), 4),
    ((0, 90_000), 1),
    ((199, 60_001), 1),
    ((200, 60_000), 2),
    ((200, 60_001), 2),
    ((201, 60_000), 1),
    ((201, 60_001), 1),
];

/// One script in this many has a last line without LF.
const NO_LF_ONE_IN: usize = 4;

pub fn text(random: &mut Random, mut lines: Vec<Vec<u8>>) -> Vec<u8> {
    let sizes = SIZES.iter().flat_map(|&(size, times)| vec![size; times]);
    let (count, bytes) = random.pick(&sizes.collect::<Vec<_>>());
    if bytes > 0 {
        lines.insert(random.below(lines.len() + 1), b"x".to_vec());
    }
    if count == 0 && bytes > 0 && random.one_in(2) {
        long_frames(random, &mut lines);
    }
    while lines.len() < count {
        scatter::add(random, &mut lines);
    }
    // An empty last line would be none without its LF.
    let may_lack = lines.last().is_some_and(|line| !line.is_empty());
    let without_lf = may_lack && random.one_in(NO_LF_ONE_IN);
    let now = lines.iter().map(|line| line.len() + 1).sum::<usize>() - without_lf as usize;
    widen(random, &mut lines, bytes.saturating_sub(now));
    let mut text = lines.join(&b'\n');
    if !without_lf && !lines.is_empty() {
        text.push(b'\n');
    }
    text
}

/// Some with bodies of any length, up to the longest line that is read. None is a frame that the module takes.
fn long_frames(random: &mut Random, lines: &mut Vec<Vec<u8>>) {
    for _ in 0..random.below(40) {
        let (port, digit) = (random.pick(b"123"), random.pick(b"37A"));
        let any = 300 + random.below(299);
        let pairs = random.pick(&[599, 544, 543, any]);
        let line = [&[port, b' '][..], &vec![digit; 2 * pairs]].concat();
        let place = random.below(lines.len() + 1);
        lines.insert(place, line);
    }
}

/// So many characters more, all in BAD lines, which stay BAD. There must be one if there are any to add.
fn widen(random: &mut Random, lines: &mut [Vec<u8>], mut missing: usize) {
    let mut bad: Vec<usize> = (0..lines.len())
        .filter(|&place| parse(&lines[place]).is_none())
        .collect();
    random.shuffle(&mut bad);
    while missing > 0 {
        let more = match bad.len() {
            1 => missing,
            _ => (1 + random.below(4_000)).min(missing),
        };
        let place = bad.pop().expect("a BAD line");
        lines[place].extend(vec![b'x'; more]);
        missing -= more;
    }
}
