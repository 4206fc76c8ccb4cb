//! Stuffing: a flag or an escape inside a body is sent as two bytes, so that 7Eh only ever delimits.

pub const FLAG: u8 = 0x7E;
pub const ESCAPE: u8 = 0x7D;
pub const FLAG_CODE: u8 = 0x5E;
pub const ESCAPE_CODE: u8 = 0x5D;

pub fn stuff(plain: &[u8]) -> Vec<u8> {
    let mut line = Vec::new();
    for &byte in plain {
        match byte {
            FLAG => line.extend([ESCAPE, FLAG_CODE]),
            ESCAPE => line.extend([ESCAPE, ESCAPE_CODE]),
            other => line.push(other),
        }
    }
    line
}

/// `None` for a flag, or for an escape without one of its two codes after it.
pub fn unstuff(line: &[u8]) -> Option<Vec<u8>> {
    let mut plain = Vec::new();
    let mut bytes = line.iter();
    while let Some(&byte) = bytes.next() {
        plain.push(match byte {
            FLAG => return None,
            ESCAPE => match *bytes.next()? {
                FLAG_CODE => FLAG,
                ESCAPE_CODE => ESCAPE,
                _ => return None,
            },
            other => other,
        });
    }
    Some(plain)
}
