//! One kind of damage: how often it was tried, and what came of it.

use super::{quick, Good};
use crate::body::{self, Body};
use crate::frame;
use crate::refusal::Refusal;

/// The reader is asked about one in so many of those that the short way refuses.
const SAMPLE: u64 = 101;

/// So many of each sort are kept to be shown.
const KEPT: usize = 20;

#[derive(Clone, Copy, Debug, PartialEq, Eq)]
pub enum Place {
    Bytes,
    Wire,
}

/// A damaged body that is read as a body; number 0 if as a frame too.
#[derive(Clone)]
pub struct Read {
    pub before: Vec<u8>,
    pub after: Vec<u8>,
    pub number: u8,
    pub same_length: bool,
}

#[derive(Clone)]
pub struct Row {
    pub place: Place,
    pub flips: usize,
    pub tried: u64,
    /// How often each number came; 0 for those that are read as a frame.
    pub numbers: [u64; 10],
    /// Of those read as a body: with as many unstuffed bytes as before.
    pub same_length: u64,
    /// Of those read as a frame: of a TYP with a safety CRC.
    pub safe: u64,
    /// How often the reader was asked, and bodies of which the short way said something else.
    pub asked: u64,
    pub unlike: Vec<Vec<u8>>,
    /// The first that must not be read, that are read as a frame, and that only as a body.
    pub forbidden: Vec<Read>,
    pub frames: Vec<Read>,
    pub bodies: Vec<Read>,
}

impl Row {
    pub fn new(place: Place, flips: usize) -> Row {
        Row {
            place,
            flips,
            tried: 0,
            numbers: [0; 10],
            same_length: 0,
            safe: 0,
            asked: 0,
            unlike: Vec::new(),
            forbidden: Vec::new(),
            frames: Vec::new(),
            bodies: Vec::new(),
        }
    }

    pub fn right(&self) -> bool {
        self.forbidden.is_empty() && self.unlike.is_empty()
    }

    /// Those that are read as a body, as a frame too or not.
    pub fn read_as_body(&self) -> u64 {
        self.numbers[0] + self.numbers[7..].iter().sum::<u64>()
    }

    pub fn take(&mut self, good: &Good, line: &[u8]) {
        let number = quick::number(line);
        if number == 0 || (self.tried + 1) % SAMPLE == 0 {
            return self.ask(good, line, number);
        }
        self.tried += 1;
        self.numbers[number as usize] += 1;
    }

    /// By the reader, which has to say what the short way said.
    pub fn ask(&mut self, good: &Good, line: &[u8], short: u8) {
        self.tried += 1;
        self.asked += 1;
        let number = match body::read(line) {
            Ok(body) => {
                self.read(good, line, &body);
                0
            }
            Err(refusal) => {
                self.numbers[refusal.number() as usize] += 1;
                refusal.number()
            }
        };
        if number != short {
            keep(&mut self.unlike, line.to_vec());
        }
    }

    fn read(&mut self, good: &Good, line: &[u8], body: &Body) {
        let number = frame::read(line).map_or_else(Refusal::number, |_| 0);
        let same_length = body.application.len() + 3 == good.plain.len();
        self.numbers[number as usize] += 1;
        self.same_length += same_length as u64;
        self.safe += (number == 0 && frame::safe(body.application[0]) == Some(true)) as u64;
        let read = Read {
            before: good.line.clone(),
            after: line.to_vec(),
            number,
            same_length,
        };
        if same_length && self.never() {
            keep(&mut self.forbidden, read);
        } else if number == 0 {
            keep(&mut self.frames, read);
        } else {
            keep(&mut self.bodies, read);
        }
    }

    /// So few flips must not leave a body that is read, if it has as many unstuffed bytes.
    fn never(&self) -> bool {
        match self.place {
            Place::Bytes => self.flips <= 3,
            Place::Wire => self.flips == 1,
        }
    }
}

fn keep<T>(kept: &mut Vec<T>, item: T) {
    if kept.len() < KEPT {
        kept.push(item);
    }
}
