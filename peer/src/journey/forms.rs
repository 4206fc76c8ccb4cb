//! Named journeys about the form of a line: where one of another form stands, how lines end, and what a line may hold.

use super::edges::Edge;
use super::text;
use crate::worst::STRETCH;

/// The lines of a journey in which some are put in by their numbers.
fn with(lines: usize, others: &[(usize, &str)]) -> Vec<u8> {
    let line = |number| {
        let other = others.iter().find(|(place, _)| *place == number);
        other.map_or("1", |(_, other)| other)
    };
    let lines = (1..=lines).map(|number| format!("{}\n", line(number)));
    lines.collect::<String>().into_bytes()
}

fn without_lf(mut journey: Vec<u8>) -> Vec<u8> {
    journey.pop();
    journey
}

/// Where a line of another form stands.
pub fn placed() -> Vec<Edge> {
    [
        ("bad-at-1", with(1200, &[(1, "x")])),
        ("bad-at-500", with(1200, &[(500, "256")])),
        ("bad-at-999", with(1200, &[(999, "256")])),
        ("bad-at-1000", with(1200, &[(1000, "256")])),
        ("bad-at-1001", with(1200, &[(1001, "256")])),
        ("bad-at-last", with(1200, &[(1200, "256")])),
        ("bad-at-last-of-1000", with(1000, &[(1000, "256")])),
        ("bad-twice", with(1300, &[(600, "-1"), (1250, "007")])),
        ("bad-twice-early", with(1300, &[(2, "-1"), (3, "007")])),
        ("bad-in-short", with(5, &[(3, "256")])),
        ("bad-in-999", with(999, &[(999, "00")])),
        ("bad-makes-short", with(1000, &[(10, "")])),
        ("bad-alone", b"x\n".to_vec()),
        ("empty-line-in-the-middle", with(1200, &[(700, "")])),
        ("empty-line-first", with(1200, &[(1, "")])),
    ]
    .map(|(name, journey)| Edge::new(name, journey))
    .into()
}

/// How lines and journeys end.
pub fn ends() -> Vec<Edge> {
    let last_counts = text(&[&[0; STRETCH][..], &[9]].concat());
    let cr_lf = "1\r\n".repeat(STRETCH).into_bytes();
    [
        ("empty", Vec::new()),
        ("lf-alone", b"\n".to_vec()),
        ("two-lfs-alone", b"\n\n".to_vec()),
        ("empty-line-at-end", with(1001, &[(1001, "")])),
        ("empty-line-at-end-of-999", with(1000, &[(1000, "")])),
        ("no-lf-1", b"7".to_vec()),
        ("no-lf-999", without_lf(with(999, &[]))),
        ("no-lf-1000", without_lf(with(1000, &[(1000, "9")]))),
        ("no-lf-1001", without_lf(last_counts)),
        ("no-lf-bad", without_lf(with(1000, &[(1000, "256")]))),
        ("no-lf-bad-short", b"1\n1\n01".to_vec()),
        ("cr-lf", cr_lf),
        ("cr-lf-short", b"1\r\n1\r\n".to_vec()),
        ("cr-at-last", with(1100, &[(1100, "1\r")])),
        ("cr-at-last-no-lf", without_lf(with(1100, &[(1100, "1\r")]))),
        ("cr-between", b"1\r2\r3".to_vec()),
    ]
    .map(|(name, journey)| Edge::new(name, journey))
    .into()
}

/// Each stands alone between two counts.
const LINES: [(&str, &[u8]); 42] = [
    ("cr", b"\r"),
    ("cr-before", b"\r1"),
    ("256", b"256"),
    ("257", b"257"),
    ("260", b"260"),
    ("300", b"300"),
    ("999", b"999"),
    ("1000", b"1000"),
    ("2550", b"2550"),
    ("00", b"00"),
    ("000", b"000"),
    ("0000", b"0000"),
    ("007", b"007"),
    ("01", b"01"),
    ("0255", b"0255"),
    ("minus", b"-1"),
    ("minus-0", b"-0"),
    ("plus", b"+1"),
    ("space-before", b" 1"),
    ("space-after", b"1 "),
    ("space-alone", b" "),
    ("space-within", b"1 1"),
    ("tab", b"1\t"),
    ("point", b"1.0"),
    ("comma", b"1,0"),
    ("exponent", b"1e2"),
    ("hex", b"0x1"),
    ("letter", b"a"),
    ("letter-after", b"12a"),
    ("slash", b"/"),
    ("colon", b"1:"),
    ("nul", b"\0"),
    ("nul-after", b"1\0"),
    ("above-127", b"\xB1"),
    ("all-ones", b"\xFF\xFF"),
    ("arabic-indic", "١".as_bytes()),
    ("arabic-indic-two", "١٢".as_bytes()),
    ("full-width", "１".as_bytes()),
    ("form-feed", b"\x0C1"),
    ("byte-order-mark", b"\xEF\xBB\xBF1"),
    ("word", b"SHORT"),
    ("two-counts", b"1;2"),
];

/// Numbers that are 0, 1 or 7 if they are kept in too few bits.
const WRAPPING: [&str; 8] = [
    "65536",
    "65537",
    "4294967296",
    "4294967297",
    "18446744073709551616",
    "18446744073709551617",
    "340282366920938463463374607431768211456",
    "340282366920938463463374607431768211463",
];

/// Very long lines, so many digits each. The first digit stands once.
const DIGITS: [(&str, &str, &str, usize); 6] = [
    ("nines", "9", "9", 1200),
    ("nines", "9", "9", 1201),
    ("ones", "1", "1", 70_000),
    ("one-and-zeros", "1", "0", 1201),
    ("zeros", "0", "0", 257),
    ("zeros", "0", "0", 4097),
];

/// What a line may hold, one line each.
pub fn lines() -> Vec<Edge> {
    let between = |line: &[u8]| [b"7\n", line, b"\n7\n"].concat();
    let lines = LINES.map(|(name, line)| (format!("line-{name}"), line.to_vec()));
    let wrapping = WRAPPING.map(|line| (format!("line-{line}"), line.into()));
    let digits = DIGITS.map(|(name, first, rest, count)| {
        let line = [first, &rest.repeat(count - 1)].concat();
        (format!("line-{name}-{count}"), line.into_bytes())
    });
    let all = lines.into_iter().chain(wrapping).chain(digits);
    all.map(|(name, line)| Edge::new(name, between(&line)))
        .collect()
}
