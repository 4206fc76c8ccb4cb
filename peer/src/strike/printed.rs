//! What a program printed of a script: a header, then for each line its number and a text.

use crate::hex;

pub struct Printed {
    pub header: Vec<u8>,
    /// What comes after the number and a space.
    pub texts: Vec<Vec<u8>>,
}

impl Printed {
    /// Of a script of `count` lines. If anything else was printed: the first line that is wrong, or `None` if one is
    /// missing.
    pub fn read(printed: &[u8], count: usize) -> Result<Printed, Option<Vec<u8>>> {
        let mut lines = printed.split_inclusive(|&byte| byte == b'\n');
        let header = lines.next().ok_or(None)?;
        if !header.ends_with(b"\n") {
            return Err(Some(header.to_vec()));
        }
        let mut texts = Vec::new();
        for line in lines {
            let text = behind_number(line, texts.len() + 1).filter(|_| texts.len() < count);
            texts.push(text.ok_or(Some(line.to_vec()))?);
        }
        match texts.len() == count {
            true => Ok(Printed {
                header: header.to_vec(),
                texts,
            }),
            false => Err(None),
        }
    }

    /// `None` for a BAD line.
    pub fn answer(&self, place: usize) -> Option<u8> {
        let answer = self.field(place, 0)?;
        std::str::from_utf8(answer).ok()?.parse().ok()
    }

    /// `None` for a BAD line.
    pub fn running(&self, place: usize) -> Option<bool> {
        match self.field(place, 1)? {
            b"R" => Some(true),
            b"F" => Some(false),
            _ => None,
        }
    }

    /// Of a trace: all 256; `None` for a BAD line.
    pub fn registers(&self, place: usize) -> Option<[u8; 256]> {
        hex::decode(self.field(place, 4)?)?.try_into().ok()
    }

    /// For each line whether it was answered with one of the numbers.
    pub fn answered(&self, numbers: &[u8]) -> Vec<bool> {
        let places = 0..self.texts.len();
        places
            .map(|place| self.answer(place).is_some_and(|it| numbers.contains(&it)))
            .collect()
    }

    fn field(&self, place: usize, index: usize) -> Option<&[u8]> {
        self.texts[place].split(|&byte| byte == b' ').nth(index)
    }
}

/// `None` if the line has another number or no LF.
fn behind_number(line: &[u8], number: usize) -> Option<Vec<u8>> {
    let number = format!("{number} ");
    let text = line.strip_prefix(number.as_bytes())?.strip_suffix(b"\n")?;
    Some(text.to_vec())
}
