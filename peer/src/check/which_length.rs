//! Which programs that are wrong about the length of a script, about where its lines end and about what they are.

use super::keeping::RIGHT;
use super::which_wrong::Change;
use crate::script::{parse, Line};

/// What is LONG, and when.
pub const OF_LENGTH: [(&str, Change); 19] = [
    ("201 lines are not LONG", |rules| {
        rules.long = |text, lines| lines.len() > 201 || text.len() > 60_000
    }),
    ("200 lines are LONG", |rules| {
        rules.long = |text, lines| lines.len() > 199 || text.len() > 60_000
    }),
    ("60,001 bytes are not LONG", |rules| {
        rules.long = |text, lines| lines.len() > 200 || text.len() > 60_001
    }),
    ("60,000 bytes are LONG", |rules| {
        rules.long = |text, lines| lines.len() > 200 || text.len() > 59_999
    }),
    ("lines are not counted", |rules| {
        rules.long = |text, _| text.len() > 60_000
    }),
    ("bytes are not counted", |rules| {
        rules.long = |_, lines| lines.len() > 200
    }),
    ("both limits must be passed", |rules| {
        rules.long = |text, lines| lines.len() > 200 && text.len() > 60_000
    }),
    ("nothing is LONG", |rules| rules.long = |_, _| false),
    ("LFs are not counted as bytes", |rules| {
        rules.long = |text, lines| {
            let bytes = text.iter().filter(|&&byte| byte != b'\n').count();
            lines.len() > 200 || bytes > 60_000
        }
    }),
    ("the last LF is not counted as a byte", |rules| {
        rules.long = |text, lines| {
            let text = text.strip_suffix(b"\n").unwrap_or(text);
            lines.len() > 200 || text.len() > 60_000
        }
    }),
    ("a missing last LF is counted as a byte", |rules| {
        rules.long = |text, lines| {
            let missing = !text.is_empty() && !text.ends_with(b"\n");
            lines.len() > 200 || text.len() + missing as usize > 60_000
        }
    }),
    ("BAD lines are not counted", |rules| {
        rules.long = |text, lines| lines.iter().flatten().count() > 200 || text.len() > 60_000
    }),
    ("bytes of BAD lines are not counted", |rules| {
        rules.long = |text, lines| {
            let good = (RIGHT.lines)(text).into_iter();
            let good = good.filter(|line| parse(line).is_some());
            lines.len() > 200 || good.map(<[u8]>::len).sum::<usize>() > 60_000
        }
    }),
    ("LFs are counted as lines", |rules| {
        rules.long = |text, _| lfs(text) > 200 || text.len() > 60_000
    }),
    ("a line behind the last LF is counted", |rules| {
        rules.long = |text, _| lfs(text) + 1 > 200 || text.len() > 60_000
    }),
    ("lines are counted in 8 bits", |rules| {
        rules.long = |text, lines| lines.len() as u8 > 200 || text.len() > 60_000
    }),
    ("bytes are counted in 16 bits", |rules| {
        rules.long = |text, lines| lines.len() > 200 || text.len() as u16 > 60_000
    }),
    ("LONG is judged after FALLBACK", |rules| {
        rules.long_late = true
    }),
    ("an empty script is LONG", |rules| {
        rules.long = |text, lines| text.is_empty() || (RIGHT.long)(text, lines)
    }),
];

fn lfs(text: &[u8]) -> usize {
    text.iter().filter(|&&byte| byte == b'\n').count()
}

/// Where lines end, and what they are.
pub const OF_LINES: [(&str, Change); 12] = [
    ("a last line without LF is not read", |rules| {
        rules.lines = |text| {
            let end = text.iter().rposition(|&byte| byte == b'\n');
            (RIGHT.lines)(&text[..end.map_or(0, |end| end + 1)])
        }
    }),
    ("empty lines are skipped", |rules| {
        rules.lines = |text| {
            let lines = (RIGHT.lines)(text).into_iter();
            lines.filter(|line| !line.is_empty()).collect()
        }
    }),
    ("only the first 200 lines are read", |rules| {
        rules.lines = |text| (RIGHT.lines)(text).into_iter().take(200).collect()
    }),
    ("only the first 60,000 bytes are read", |rules| {
        rules.lines = |text| (RIGHT.lines)(&text[..text.len().min(60_000)]);
        rules.long = |_, lines| lines.len() > 200
    }),
    ("a NUL ends the script", |rules| {
        rules.lines = |text| {
            let end = text.iter().position(|&byte| byte == 0);
            (RIGHT.lines)(&text[..end.unwrap_or(text.len())])
        }
    }),
    ("an empty line ends the script", |rules| {
        rules.lines = |text| {
            let lines = (RIGHT.lines)(text).into_iter();
            lines.take_while(|line| !line.is_empty()).collect()
        }
    }),
    ("a CR at the end of a line is ignored", |rules| {
        rules.parse = |line| parse(line.strip_suffix(b"\r").unwrap_or(line))
    }),
    ("small letters are BAD", |rules| {
        rules.parse = |line| parse(line).filter(|_| !line.iter().any(u8::is_ascii_lowercase))
    }),
    ("inputs do not tick", |rules| {
        rules.parse = |line| parse(line).filter(|line| !matches!(line, Line::Inputs(_)))
    }),
    ("a BAD line ticks", |rules| {
        rules.parse = |line| parse(line).or(Some(Line::Ticks(1)))
    }),
    ("ports 0 and 3 to 9 are port 1", |rules| {
        rules.parse = |line| match parse(line)? {
            Line::Frame { body, .. } => Some(Line::Frame { port: 1, body }),
            other => Some(other),
        }
    }),
    ("60,000 ticks are too many", |rules| {
        rules.parse = |line| parse(line).filter(|line| *line != Line::Ticks(60_000))
    }),
];
