//! Journey programs that are wrong about faults: the form of a line, where lines end, and what a fault does.

use super::running::{digits, RIGHT};
use super::worst_wrong::Change;

/// What a line of another form does.
pub const OF_FAULTS: [(&str, Change); 17] = [
    ("a BAD line is skipped", |rules| {
        rules.left = |judged| judged.into_iter().filter(Option::is_some).collect()
    }),
    ("a BAD line counts 0", |rules| {
        rules.left = |judged| judged.iter().map(|one| one.or(Some(0))).collect()
    }),
    ("a BAD line ends the journey", |rules| {
        rules.left = |judged| judged.into_iter().take_while(Option::is_some).collect()
    }),
    ("the last BAD line is told", |rules| {
        rules.fault = |judged| {
            let last = judged.iter().rposition(Option::is_none);
            last.map(|place| format!("{} BAD\n", place + 1))
        }
    }),
    ("each BAD line is told", |rules| {
        rules.fault = |judged| {
            let places = (0..judged.len()).filter(|&place| judged[place].is_none());
            let told: String = places.map(|place| format!("{} BAD\n", place + 1)).collect();
            (!told.is_empty()).then_some(told)
        }
    }),
    ("SHORT wins over BAD", |rules| {
        rules.fault = |judged| match judged.len() {
            0..1_000 => None,
            _ => (RIGHT.fault)(judged),
        }
    }),
    ("a BAD line among the first 999 is SHORT", |rules| {
        rules.fault = |judged| match judged.iter().position(Option::is_none) {
            Some(0..999) => Some("SHORT\n".to_string()),
            _ => (RIGHT.fault)(judged),
        }
    }),
    ("a BAD line is told once 1,000 lines have come", |rules| {
        rules.fault = |judged| {
            let place = judged.iter().position(Option::is_none)?;
            Some(format!("{} BAD\n", (place + 1).max(1_000)))
        }
    }),
    ("only the first 1,000 lines can be BAD", |rules| {
        rules.fault = |judged| (RIGHT.fault)(&judged[..judged.len().min(1_000)])
    }),
    ("the first line cannot be BAD", |rules| {
        rules.fault = |judged| (RIGHT.fault)(judged).filter(|told| told != "1 BAD\n")
    }),
    ("the last line cannot be BAD", |rules| {
        rules.fault = |judged| (RIGHT.fault)(&judged[..judged.len().saturating_sub(1)])
    }),
    ("BAD has no number", |rules| {
        rules.fault = |judged| (RIGHT.fault)(judged).map(|_| "BAD\n".to_string())
    }),
    ("BAD lines are counted from 0", |rules| {
        rules.fault = |judged| {
            let place = judged.iter().position(Option::is_none);
            place.map(|place| format!("{place} BAD\n"))
        }
    }),
    ("the number of a BAD line has 8 bits", |rules| {
        rules.fault = |judged| {
            let place = judged.iter().position(Option::is_none);
            place.map(|place| format!("{} BAD\n", (place + 1) % 256))
        }
    }),
    ("BAD comes before its number", |rules| {
        rules.fault = |judged| {
            let place = judged.iter().position(Option::is_none);
            place.map(|place| format!("BAD {}\n", place + 1))
        }
    }),
    ("SHORT is printed after BAD", |rules| {
        rules.fault = |judged| (RIGHT.fault)(judged).map(|told| told + "SHORT\n")
    }),
    ("no LF is printed after BAD", |rules| {
        rules.fault = |judged| (RIGHT.fault)(judged).map(|told| told.trim().to_string())
    }),
];

/// Which lines are counts.
pub const OF_FORMS: [(&str, Change); 26] = [
    ("256 is taken", |rules| {
        rules.count = |line| kept(line, |number| number <= 256)
    }),
    ("any three digits are taken", |rules| {
        rules.count = |line| kept(line, |number| number <= 999)
    }),
    ("any number is taken", |rules| {
        rules.count = |line| kept(line, |_| true)
    }),
    ("what is above 255 is taken as 255", |rules| {
        rules.count = |line| kept(line, |_| true).map(|number| number.min(255))
    }),
    ("255 is not taken", |rules| {
        rules.count = |line| kept(line, |number| number < 255)
    }),
    ("0 is not taken", |rules| {
        rules.count = |line| kept(line, |number| (1..=255).contains(&number))
    }),
    ("each digit has its own limit", |rules| {
        rules.count = |line| {
            let within = line.len() < 3 || line.iter().zip(b"255").all(|(a, b)| a <= b);
            (RIGHT.count)(line).filter(|_| within)
        }
    }),
    ("00 is taken", |rules| {
        rules.count = |line| {
            if line == b"00" {
                Some(0)
            } else {
                (RIGHT.count)(line)
            }
        }
    }),
    ("007 is taken", |rules| {
        rules.count = |line| match line {
            [b'0', .., b'1'..=b'9'] => digits(line).filter(|&number| number <= 255),
            _ => (RIGHT.count)(line),
        }
    }),
    ("leading zeros up to three digits are taken", |rules| {
        rules.count = |line| match line.len() {
            1..=3 => digits(line).filter(|&number| number <= 255),
            _ => None,
        }
    }),
    ("an empty line counts 0", |rules| {
        rules.count = |line| {
            if line.is_empty() {
                Some(0)
            } else {
                (RIGHT.count)(line)
            }
        }
    }),
    ("a CR at the end of a line is ignored", |rules| {
        rules.count = |line| (RIGHT.count)(line.strip_suffix(b"\r").unwrap_or(line))
    }),
    ("spaces about a count are ignored", |rules| {
        rules.count = |line| (RIGHT.count)(line.trim_ascii())
    }),
    ("a space before a count is ignored", |rules| {
        rules.count = |line| (RIGHT.count)(line.strip_prefix(b" ").unwrap_or(line))
    }),
    ("a plus is taken", |rules| {
        rules.count = |line| (RIGHT.count)(line.strip_prefix(b"+").unwrap_or(line))
    }),
    ("a minus is taken", |rules| {
        rules.count = |line| (RIGHT.count)(line.strip_prefix(b"-").unwrap_or(line))
    }),
    ("only the first three characters are looked at", |rules| {
        rules.count = |line| (RIGHT.count)(&line[..line.len().min(3)])
    }),
    ("what is no digit ends a count", |rules| {
        rules.count = |line| {
            let length = line.iter().take_while(|byte| byte.is_ascii_digit()).count();
            (RIGHT.count)(&line[..length])
        }
    }),
    ("a NUL ends a line", |rules| {
        rules.count = |line| (RIGHT.count)(line.split(|&byte| byte == 0).next()?)
    }),
    ("the highest bit of a byte is ignored", |rules| {
        rules.count = |line| {
            let line: Vec<u8> = line.iter().map(|byte| byte & 0x7F).collect();
            (RIGHT.count)(&line)
        }
    }),
    ("a digit is the low half of a byte", |rules| {
        rules.count = |line| match line {
            [byte] if byte & 0xF <= 9 => Some((byte & 0xF) as u64),
            _ => (RIGHT.count)(line),
        }
    }),
    ("numbers wrap at 2^8", |rules| {
        rules.count = |line| wraps(line, 8)
    }),
    ("numbers wrap at 2^16", |rules| {
        rules.count = |line| wraps(line, 16)
    }),
    ("numbers wrap at 2^32", |rules| {
        rules.count = |line| wraps(line, 32)
    }),
    ("numbers wrap at 2^64", |rules| {
        rules.count = |line| wraps(line, 64)
    }),
    ("the length of a line has 8 bits", |rules| {
        rules.count = |line| (RIGHT.count)(&line[..line.len() % 256])
    }),
];

/// A number without leading zeros, of up to ten digits.
fn kept(line: &[u8], taken: fn(u64) -> bool) -> Option<u64> {
    match line {
        b"0" => Some(0).filter(|&number| taken(number)),
        [b'1'..=b'9', ..] if line.len() <= 10 => digits(line).filter(|&number| taken(number)),
        _ => None,
    }
}

/// A number without leading zeros, kept in so many bits.
fn wraps(line: &[u8], bits: u32) -> Option<u64> {
    let mask = u64::MAX >> (64 - bits);
    let leading = line.is_empty() || line[0] == b'0' && line.len() > 1;
    let number = digits(line)? & mask;
    (!leading && number <= 255).then_some(number)
}

/// Where lines end.
pub const OF_LINES: [(&str, Change); 7] = [
    ("an empty line follows the last LF", |rules| {
        rules.lines = |text| text.split(|&byte| byte == b'\n').collect()
    }),
    ("an empty last line is none", |rules| {
        rules.lines = |text| {
            let mut lines = (RIGHT.lines)(text);
            lines.pop_if(|line| line.is_empty());
            lines
        }
    }),
    ("empty lines are skipped", |rules| {
        rules.lines = |text| {
            let lines = (RIGHT.lines)(text).into_iter();
            lines.filter(|line| !line.is_empty()).collect()
        }
    }),
    ("a last line without LF is not read", |rules| {
        rules.lines = |text| {
            let end = text.iter().rposition(|&byte| byte == b'\n');
            (RIGHT.lines)(&text[..end.map_or(0, |end| end + 1)])
        }
    }),
    ("a last line without LF is BAD", |rules| {
        rules.lines = |text| {
            let mut lines = (RIGHT.lines)(text);
            if let (Some(last), false) = (lines.last_mut(), text.ends_with(b"\n")) {
                *last = b"";
            }
            lines
        }
    }),
    ("a CR ends a line", |rules| {
        rules.lines = |text| {
            let lines = text.split_inclusive(|byte| b"\r\n".contains(byte));
            lines.map(|line| &line[..line.len() - 1]).collect()
        }
    }),
    ("a journey without lines has an empty one", |rules| {
        rules.lines = |text| match text {
            b"" => vec![b""],
            _ => (RIGHT.lines)(text),
        }
    }),
];

/// About the millionth line, and numbers of more than 16 bits.
pub const OF_THE_MILLIONTH: [(&str, Change); 12] = [
    ("a million lines are LONG", |rules| {
        rules.fault = |judged| match judged.len() {
            1_000_000 => Some("LONG\n".to_string()),
            _ => (RIGHT.fault)(judged),
        }
    }),
    ("one line more is not LONG", |rules| {
        rules.fault = |judged| match judged.len() {
            1_000_001 => (RIGHT.fault)(&judged[..1_000_000]),
            _ => (RIGHT.fault)(judged),
        }
    }),
    ("lines past the millionth are not read", |rules| {
        rules.left = |judged| judged.into_iter().take(1_000_000).collect()
    }),
    ("LONG wins over an earlier BAD", |rules| {
        rules.fault = |judged| match judged.len() {
            1_000_001.. => Some("LONG\n".to_string()),
            _ => (RIGHT.fault)(judged),
        }
    }),
    ("a line past the millionth can be BAD", |rules| {
        rules.fault = |judged| {
            let place = judged.iter().position(Option::is_none);
            let bad = place.map(|place| format!("{} BAD\n", place + 1));
            bad.or((RIGHT.fault)(judged))
        }
    }),
    ("an empty line past the millionth is none", |rules| {
        rules.lines = |text| {
            let mut lines = (RIGHT.lines)(text);
            lines.pop_if(|line| line.is_empty());
            lines
        }
    }),
    ("a line past the millionth needs its LF", |rules| {
        rules.lines = |text| match text.ends_with(b"\n") {
            true => (RIGHT.lines)(text),
            false => (RIGHT.lines)(text).into_iter().take(1_000_000).collect(),
        }
    }),
    ("the millionth line cannot be BAD", |rules| {
        rules.fault = |judged| {
            let told = (RIGHT.fault)(judged)?;
            Some(told).filter(|told| told != "1000000 BAD\n")
        }
    }),
    ("LONG has a number", |rules| {
        rules.fault = |judged| {
            let told = (RIGHT.fault)(judged)?;
            Some(told.replace("LONG", "1000001 LONG"))
        }
    }),
    ("LONG is printed after the numbers", |rules| {
        rules.fault = |judged| match judged.len() {
            1_000_001.. => Some("1000 1\nLONG\n".to_string()),
            _ => (RIGHT.fault)(judged),
        }
    }),
    ("the number of a line has 16 bits", |rules| {
        rules.print = |sum, last| format!("{sum} {}\n", (last - 999) % 65_536)
    }),
    ("the number of a BAD line has 16 bits", |rules| {
        rules.fault = |judged| {
            let told = (RIGHT.fault)(judged)?;
            let number = told.strip_suffix(" BAD\n").map(str::parse::<u32>);
            let wrapped = number.map(|number| format!("{} BAD\n", number.unwrap_or(0) as u16));
            wrapped.or(Some(told))
        }
    }),
];
