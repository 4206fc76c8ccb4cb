//! Text for the page. A script is not trusted: whatever comes from it goes through here.

/// the most bytes of one text that are shown
const MOST: usize = 400;

/// Text of our own or of a program: only what HTML would take as its own is replaced.
pub fn escaped(text: &str) -> String {
    let mut made = String::with_capacity(text.len() + 16);
    for c in text.chars() {
        match c {
            '<' => made.push_str("&lt;"),
            '>' => made.push_str("&gt;"),
            '&' => made.push_str("&amp;"),
            '"' => made.push_str("&quot;"),
            '\'' => made.push_str("&#39;"),
            _ => made.push(c),
        }
    }
    made
}

fn is_text(byte: u8) -> bool {
    (0x20..0x7F).contains(&byte)
}

/// Bytes of a script: what is text as text, any other byte as its hex digits in an element of its own.
pub fn shown(bytes: &[u8]) -> String {
    let mut made = String::new();
    for byte in bytes.iter().take(MOST) {
        match is_text(*byte) {
            true => made.push_str(&escaped(&char::from(*byte).to_string())),
            false => made.push_str(&format!("<span class=\"byte\">{byte:02X}</span>")),
        }
    }
    if bytes.len() > MOST {
        let all = crate::words::grouped(bytes.len() as u64);
        made.push_str(&format!("<span class=\"cut\">… {all} bytes in all</span>"));
    }
    made
}

/// The same where no element may stand, as in the title of the window.
pub fn plain(bytes: &[u8]) -> String {
    let one = |byte: &u8| {
        if is_text(*byte) {
            escaped(&char::from(*byte).to_string())
        } else {
            format!("[{byte:02X}]")
        }
    };
    bytes.iter().take(MOST).map(one).collect()
}

#[cfg(test)]
mod tests {
    use super::*;

    #[test]
    fn nothing_stays_markup() {
        assert_eq!(shown(b"<a b='\"&"), "&lt;a b=&#39;&quot;&amp;");
        assert_eq!(shown(&[0, 0x41, 0xFF]), "<span class=\"byte\">00</span>A<span class=\"byte\">FF</span>");
        assert_eq!(plain(&[0x7F, b'<']), "[7F]&lt;");
    }

    #[test]
    fn long_text_is_cut() {
        assert!(shown(&[b'a'; 401]).ends_with("a<span class=\"cut\">… 401 bytes in all</span>"));
        assert_eq!(shown(&[b'a'; 400]).len(), 400);
    }
}
