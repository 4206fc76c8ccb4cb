//! In which way a line of a script is BAD.

use crate::script::LINE_MAX;

pub fn form(line: &[u8]) -> &'static str {
    match line {
        _ if line.len() > LINE_MAX => "over 1,200 characters",
        [] => "empty",
        _ if line.ends_with(b"\r") => "CR at the end",
        _ if !line.is_ascii() || line.contains(&0) => "no text",
        [b'T', b' ', ..] => "no count of ticks",
        [b'I', b' ', ..] => "no inputs",
        [b'0'..=b'9', b' ', ..] => "no pairs of hex digits",
        [b't' | b'i', b' ', ..] => "small letter",
        _ => "no form at all",
    }
}
