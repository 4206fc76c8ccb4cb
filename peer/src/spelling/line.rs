//! A line of a list for the frame program: nothing, a script's own line, or a frame or body to
//! answer, perhaps on a port; or what is wrong with it.

use super::kinds::{self, Kind};
use crate::hex;
use crate::script::LINE_MAX;

pub enum Line<'a> {
    /// An empty line or a comment.
    Nothing,
    /// A line of a script, printed unchanged.
    Script(&'a [u8]),
    /// A frame or a body. Before the answer comes a port digit and a space, or nothing.
    Question(&'a [u8], Question),
}

pub enum Question {
    Frame(Spelled),
    Body(Vec<u8>),
}

/// The values are in the order of the kind's fields.
pub struct Spelled {
    pub kind: &'static Kind,
    pub values: Vec<u64>,
    pub data: Vec<u8>,
}

/// The first thing that is wrong, if anything is.
pub fn parse(line: &[u8]) -> Result<Line<'_>, String> {
    if line.len() > LINE_MAX {
        return Err("over 1,200 characters".to_string());
    }
    if line.is_empty() || line.starts_with(b"#") {
        return Ok(Line::Nothing);
    }
    if [&b"T"[..], b"I"].contains(&(Words { left: line }).first()) {
        return Ok(Line::Script(line));
    }
    let (port, rest) = port(line);
    if !port.is_empty() && hex::decode(rest).is_some() {
        return Ok(Line::Script(line));
    }
    question(rest).map(|question| Line::Question(port, question))
}

/// The port digit and its space, if the line starts so, and the rest.
fn port(line: &[u8]) -> (&[u8], &[u8]) {
    match line {
        [b'0'..=b'9', b' ', ..] => line.split_at(2),
        _ => line.split_at(0),
    }
}

fn question(text: &[u8]) -> Result<Question, String> {
    let mut words = Words { left: text };
    let first = words.first();
    if first == b"body" {
        return body(words.left).map(Question::Body);
    }
    let kind = kinds::named(first).ok_or("no such kind")?;
    frame(kind, words).map(Question::Frame)
}

fn body(behind: &[u8]) -> Result<Vec<u8>, String> {
    behind
        .strip_prefix(b" ")
        .and_then(hex::decode)
        .ok_or("body wants pairs of hex digits".to_string())
}

fn frame(kind: &'static Kind, mut words: Words) -> Result<Spelled, String> {
    let mut values = Vec::new();
    for field in kind.fields {
        let value = words
            .next()
            .and_then(|word| value_of(word, field.name))
            .and_then(|digits| number(digits, field.digits));
        let wants = || format!("{}= wants {} hex digits", field.name, field.digits);
        values.push(value.ok_or_else(wants)?);
    }
    let mut data = Vec::new();
    if kind.with_data {
        data = words
            .next()
            .and_then(|word| value_of(word, "data"))
            .and_then(hex::decode)
            .ok_or("data= wants pairs of hex digits")?;
    }
    if !words.left.is_empty() {
        return Err("more behind the last field".to_string());
    }
    Ok(Spelled { kind, values, data })
}

fn value_of<'a>(word: &'a [u8], name: &str) -> Option<&'a [u8]> {
    word.strip_prefix(name.as_bytes())?.strip_prefix(b"=")
}

fn number(digits: &[u8], wanted: usize) -> Option<u64> {
    if digits.len() != wanted {
        return None;
    }
    let bytes = hex::decode(digits)?;
    let number = bytes
        .iter()
        .fold(0, |value, &byte| value << 8 | byte as u64);
    Some(number)
}

struct Words<'a> {
    left: &'a [u8],
}

impl<'a> Words<'a> {
    /// Up to the first space or the end.
    fn first(&mut self) -> &'a [u8] {
        let end = self.left.iter().position(|&byte| byte == b' ');
        let (word, left) = self.left.split_at(end.unwrap_or(self.left.len()));
        self.left = left;
        word
    }

    /// From after one space to the next or the end; `None` at the end.
    fn next(&mut self) -> Option<&'a [u8]> {
        self.left = self.left.strip_prefix(b" ")?;
        Some(self.first())
    }
}
