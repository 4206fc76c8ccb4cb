//! What is wrong with a line that the trace calls BAD. That it is BAD the trace has said; this only names the first thing to mend.

/// the most characters that a line may have
const MOST: usize = 1_200;

pub fn reason(line: &[u8]) -> String {
    if line.len() > MOST {
        return format!("{} characters; a line has at most 1,200", crate::words::grouped(line.len() as u64));
    }
    let Some((first, rest)) = line.split_first() else {
        return "an empty line".into();
    };
    if line.last() == Some(&b'\r') {
        return "a CR at its end; lines end with LF alone".into();
    }
    match first {
        b'T' => "T wants a space and a number from 1 to 60000, without leading zeros".into(),
        b'I' => inputs(rest),
        b'0'..=b'9' => body(rest),
        b't' | b'i' => "T and I are capital letters".into(),
        b'#' => "a comment; comments belong in a list, saturn-frame takes them out".into(),
        _ => "a line starts with T, I or a port digit; frames by their fields belong in a list for saturn-frame".into(),
    }
}

fn inputs(rest: &[u8]) -> String {
    match rest.split_first() {
        Some((b' ', digits)) => match other(digits) {
            Some(place) => format!("I wants 128 hex digits; character {} is none", place + 3),
            None => format!("I wants 128 hex digits; it has {}", digits.len()),
        },
        _ => "I wants a space and 128 hex digits".into(),
    }
}

fn body(rest: &[u8]) -> String {
    match rest.split_first() {
        Some((b' ', digits)) if digits.contains(&b'=') => {
            "after the port only hex digits; frames by their fields belong in a list for saturn-frame".into()
        }
        Some((b' ', digits)) => match other(digits) {
            Some(place) => format!("after the port only hex digits; character {} is none", place + 3),
            None => "hex digits come in pairs; one is missing".into(),
        },
        _ => "after the port digit a space, then pairs of hex digits".into(),
    }
}

/// the place of the first character that is no hex digit
fn other(digits: &[u8]) -> Option<usize> {
    digits.iter().position(|b| !b.is_ascii_hexdigit())
}

#[cfg(test)]
mod tests {
    use super::*;

    #[test]
    fn first_thing_to_mend() {
        let cases: [(&[u8], &str); 9] = [
            (b"", "empty"),
            (b"T 60001", "60000"),
            (b"I 00", "it has 2"),
            (b"I 0x", "character 4 is none"),
            (b"1", "a space"),
            (b"1 ABC", "in pairs"),
            (b"1 sync src=000007 cyc=10", "saturn-frame"),
            (b"1 AB\r", "CR"),
            (b"# opening", "comment"),
        ];
        for (line, part) in cases {
            assert!(reason(line).contains(part), "{}", reason(line));
        }
        assert!(reason(&[b'1'; 1_201]).starts_with("1,201 characters"));
    }
}
