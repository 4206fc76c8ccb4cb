//! The form of a line: it is what printing a number from 0 to 255 gives, and nothing else.

use std::collections::HashMap;

/// The most characters of such a line.
pub const LENGTH_MAX: usize = 3;

pub struct Forms {
    counts: HashMap<Vec<u8>, u8>,
}

impl Forms {
    pub fn new() -> Forms {
        let printed = |count: u8| (count.to_string().into_bytes(), count);
        Forms {
            counts: (0..=255).map(printed).collect(),
        }
    }

    /// The count in a line, without its LF.
    pub fn count(&self, line: &[u8]) -> Option<u8> {
        self.counts.get(line).copied()
    }
}
