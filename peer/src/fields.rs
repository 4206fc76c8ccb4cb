//! Numbers in a row of bytes, high byte first: read one after another, and put in the same way.

pub struct Reader<'a> {
    left: &'a [u8],
}

/// Every method gives `None` when fewer bytes are left than it needs.
impl<'a> Reader<'a> {
    pub fn new(bytes: &'a [u8]) -> Self {
        Reader { left: bytes }
    }

    pub fn bytes(&mut self, count: usize) -> Option<&'a [u8]> {
        if count > self.left.len() {
            return None;
        }
        let (taken, left) = self.left.split_at(count);
        self.left = left;
        Some(taken)
    }

    fn number(&mut self, width: usize) -> Option<u64> {
        let bytes = self.bytes(width)?;
        Some(
            bytes
                .iter()
                .fold(0, |value, &byte| value << 8 | byte as u64),
        )
    }

    pub fn u8(&mut self) -> Option<u8> {
        self.number(1).map(|value| value as u8)
    }

    pub fn u16(&mut self) -> Option<u16> {
        self.number(2).map(|value| value as u16)
    }

    pub fn u24(&mut self) -> Option<u32> {
        self.number(3).map(|value| value as u32)
    }

    pub fn u32(&mut self) -> Option<u32> {
        self.number(4).map(|value| value as u32)
    }

    pub fn u64(&mut self) -> Option<u64> {
        self.number(8)
    }

    pub fn rest(&mut self) -> &'a [u8] {
        std::mem::take(&mut self.left)
    }

    pub fn at_end(&self) -> bool {
        self.left.is_empty()
    }
}

#[derive(Default)]
pub struct Writer {
    done: Vec<u8>,
}

impl Writer {
    pub fn bytes(mut self, bytes: &[u8]) -> Self {
        self.done.extend(bytes);
        self
    }

    pub fn u8(self, value: u8) -> Self {
        self.bytes(&[value])
    }

    pub fn u16(self, value: u16) -> Self {
        self.bytes(&value.to_be_bytes())
    }

    /// The low 24 bits; whether the value fits is for the caller to ask.
    pub fn u24(self, value: u32) -> Self {
        self.bytes(&value.to_be_bytes()[1..])
    }

    pub fn u32(self, value: u32) -> Self {
        self.bytes(&value.to_be_bytes())
    }

    pub fn u64(self, value: u64) -> Self {
        self.bytes(&value.to_be_bytes())
    }

    pub fn done(self) -> Vec<u8> {
        self.done
    }
}
