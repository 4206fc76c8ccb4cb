//! In which way a body is damaged, numbers 1 to 4.

use crate::body;
use crate::refusal::Refusal;
use crate::stuffing::{ESCAPE, FLAG};

pub fn fault(received: &[u8]) -> Option<String> {
    let refusal = body::read(received).err()?;
    let way = match refusal {
        Refusal::BodySize if received.is_empty() => "none at all",
        Refusal::BodySize if received.len() < 7 => "short",
        Refusal::BodySize => "long",
        Refusal::Stuffing => stuffing(&received[1..]),
        Refusal::UnstuffedSize if received.len() < 20 => "short",
        Refusal::UnstuffedSize => "long",
        Refusal::Fcs => "FCS",
        _ => return None,
    };
    Some(format!("damaged body {}: {way}", refusal.number()))
}

/// The first fault.
fn stuffing(line: &[u8]) -> &'static str {
    let mut bytes = line.iter();
    while let Some(&byte) = bytes.next() {
        match byte {
            FLAG => return "flag",
            ESCAPE => match bytes.next() {
                None => return "last 7Dh",
                Some(0x5D | 0x5E) => {}
                Some(&FLAG) => return "flag behind 7Dh",
                Some(_) => return "other byte behind 7Dh",
            },
            _ => {}
        }
    }
    "none"
}
