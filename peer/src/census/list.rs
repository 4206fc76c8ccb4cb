//! What a list for the frame program brings up, and how often: each sort of line, each answer,
//! and the edges between them.

use crate::hex;
use crate::script::LINE_MAX;
use crate::spelling;
use std::collections::BTreeMap;
use std::fmt;

pub struct ListCensus {
    counts: BTreeMap<String, usize>,
}

/// A list as bytes; its last line ends with LF.
pub fn of_list(list: &[u8]) -> ListCensus {
    let mut counts = BTreeMap::new();
    let list = list.strip_suffix(b"\n").unwrap_or(list);
    for line in list.split(|&byte| byte == b'\n') {
        let edges = edges(line).into_iter().map(|edge| format!("edge: {edge}"));
        for what in edges.chain([sort(line)]) {
            *counts.entry(what).or_default() += 1;
        }
    }
    ListCensus { counts }
}

impl ListCensus {
    pub fn count(&self, what: &str) -> usize {
        self.counts.get(what).copied().unwrap_or(0)
    }
}

impl fmt::Display for ListCensus {
    fn fmt(&self, output: &mut fmt::Formatter) -> fmt::Result {
        for (what, count) in &self.counts {
            writeln!(output, "{what}: {count}")?;
        }
        Ok(())
    }
}

/// Each line is of one sort, told by the rule of the list that it meets.
fn sort(line: &[u8]) -> String {
    match line {
        _ if line.len() > LINE_MAX => "line over 1,200 characters".to_string(),
        [] => "empty line".to_string(),
        [b'#', ..] => "comment".to_string(),
        [b'T'] | [b'T', b' ', ..] => "line of ticks".to_string(),
        [b'I'] | [b'I', b' ', ..] => "line of inputs".to_string(),
        [port @ b'0'..=b'9', b' ', rest @ ..] => match hex::decode(rest) {
            Some(_) => format!("script's own line on port {}", *port as char),
            None => format!("port before {}", asked(rest)),
        },
        _ => format!("no port: {}", asked(line)),
    }
}

/// What is asked, and what comes of it.
fn asked(text: &[u8]) -> String {
    let mut printed = Vec::new();
    spelling::run(text, &mut printed).expect("memory takes any text");
    let printed = String::from_utf8_lossy(&printed);
    let what = match text.starts_with(b"body ") {
        true => "body",
        false => "frame",
    };
    match printed.trim_end().split_once(' ') {
        Some(("1", complaint)) if complaint.contains("no such kind") => "no kind".to_string(),
        Some(("1", _)) => format!("{what} that is BAD"),
        Some(("refused", why)) => format!("{what} refused {}", &why[..1]),
        _ => what.to_string(),
    }
}

/// What lies at an edge; a line may have none or several.
fn edges(line: &[u8]) -> Vec<String> {
    let mut edges = Vec::new();
    if (1199..=1201).contains(&line.len()) {
        edges.push(format!("{} of {} characters", long_sort(line), line.len()));
    }
    if line.len() > LINE_MAX && line[0] == b'#' {
        edges.push("comment over 1,200 characters".to_string());
    }
    edges.extend(at_the_start(line).map(str::to_string));
    if let [b'0'..=b'9', b' ', digits @ ..] = line {
        edges.extend(digits_behind_a_port(digits).map(str::to_string));
    }
    let unported = match line {
        [b'0'..=b'9', b' ', rest @ ..] => rest,
        _ => line,
    };
    let body = unported.strip_prefix(b"body ").and_then(hex::decode);
    edges.extend(body.and_then(|body| flags(&body)).map(str::to_string));
    edges
}

/// What a long line would be if its length did not matter.
fn long_sort(line: &[u8]) -> &'static str {
    match line {
        [b'#', ..] => "comment",
        [b'T' | b'I', b' ', ..] => "ticks or inputs",
        [b'0'..=b'9', b' ', rest @ ..] if rest.iter().all(u8::is_ascii_hexdigit) => {
            "port and digits"
        }
        [b'0'..=b'9', b' ', ..] => "port before another line",
        _ => "other line",
    }
}

fn at_the_start(line: &[u8]) -> Option<&'static str> {
    match line {
        [b'#'] => Some("# alone"),
        [b' ', b'#', ..] => Some("space before #"),
        [b'T'] | [b'I'] => Some("T or I alone"),
        [b'T' | b'I', b' '] => Some("T or I and a space"),
        [b'T' | b'I', ..] if !line[1..].starts_with(b" ") => Some("T or I and no space"),
        [b't' | b'i'] | [b't' | b'i', b' ', ..] => Some("t or i"),
        [b'0'..=b'9'] => Some("digit alone"),
        [b'0'..=b'9', b' '] => Some("digit and a space"),
        [b'0'..=b'9', b' ', b' ', ..] => Some("digit and two spaces"),
        [b'0'..=b'9', ..] if line[1] != b' ' => Some("digit and no space"),
        _ => None,
    }
}

fn digits_behind_a_port(digits: &[u8]) -> Option<&'static str> {
    if digits.is_empty() || !digits.iter().all(u8::is_ascii_hexdigit) {
        return None;
    }
    match digits.len() % 2 {
        1 => Some("odd count of digits behind a port"),
        _ if digits.iter().any(u8::is_ascii_lowercase) => Some("small letters behind a port"),
        _ => None,
    }
}

fn flags(body: &[u8]) -> Option<&'static str> {
    match body {
        [] => None,
        _ if body.iter().all(|&byte| byte == 0x7E) => Some("body of flags only"),
        [0x7E, inner @ .., 0x7E] if inner.contains(&0x7E) => Some("body with flags and one inside"),
        [0x7E, .., 0x7E] => Some("body with both flags"),
        [0x7E, ..] => Some("body with an opening flag only"),
        [.., 0x7E] => Some("body with a closing flag only"),
        _ if body.contains(&0x7E) => Some("body with a flag inside only"),
        _ => None,
    }
}
