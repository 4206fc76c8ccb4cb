//! A frame on its way to a reader: the application data without safety CRC, and an address.

use super::damage;
use super::random::Random;
use super::sample::{self, Sample};
use crate::body;
use crate::frame::{self, typ};

#[derive(Clone)]
pub struct Draft {
    pub address: u8,
    pub content: Vec<u8>,
}

impl Draft {
    pub fn new(random: &mut Random, kind: u8, datl: u8) -> Draft {
        Draft::of(&sample::frame(random, kind, datl))
    }

    pub fn of(sample: &Sample) -> Draft {
        Draft {
            address: sample.address,
            content: frame::content(&sample.frame, &sample.data),
        }
    }

    /// With a right safety CRC, if the TYP is a safe one, and a right FCS.
    pub fn body(&self) -> Vec<u8> {
        body::enclose(self.address, &self.application())
    }

    pub fn application(&self) -> Vec<u8> {
        frame::seal(self.content.clone())
    }

    pub fn with(&self, place: usize, byte: u8) -> Draft {
        Draft {
            address: self.address,
            content: damage::replaced(&self.content, place, byte),
        }
    }

    pub fn is_safe(&self) -> bool {
        frame::safe(self.content[0]) == Some(true)
    }

    /// The place of COM; DATL and ADD follow it.
    pub fn com_place(&self) -> usize {
        match self.content[0] {
            typ::SAFE_REQUEST | typ::SAFE_RESPONSE => 9,
            _ => 2,
        }
    }
}
