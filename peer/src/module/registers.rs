//! The 256 registers: where each is, and what each holds at power-up.

use super::ground::NO_GROUND;
use std::ops::{Index, IndexMut, RangeInclusive};

pub const MAC: u8 = 0x00;
pub const IID: u8 = 0x08;
pub const TYP: u8 = 0x10;
pub const VER: u8 = 0x11;
pub const TID: u8 = 0x13;
pub const SID: u8 = 0x14;
pub const OUT_REP: u8 = 0x17;
pub const TCYC: u8 = 0x18;
pub const STATUT: u8 = 0x19;
pub const CNF_REP: u8 = 0x1A;
pub const CNF_CYC: u8 = 0x1B;
pub const AD_REF: u8 = 0x1C;
pub const SZ_REF: u8 = 0x1D;
pub const CPT_SEQ: u8 = 0x20;
pub const CPT_FOR: u8 = 0x24;
pub const CONF: u8 = 0x25;
pub const GROUND: u8 = 0x26;
pub const SPARE: RangeInclusive<usize> = 0x27..=0x7F;
pub const OUTPUTS: RangeInclusive<usize> = 0x80..=0xBF;
pub const INPUTS: RangeInclusive<usize> = 0xC0..=0xFF;

pub const OUTPUT_MODULE_SIL2: u8 = 0x82;
pub const NO_TID: u8 = 0x8F;

/// The two values of OUT_REP.
pub const RELEASE: u8 = 0x55;
pub const HOLD: u8 = 0xAA;

/// Bits of STATUT: in fallback, received on port 2, bad format, bad SEQ or CYC.
pub const REP: u8 = 1 << 7;
pub const PTS: u8 = 1 << 6;
pub const BFO: u8 = 1 << 5;
pub const ESE: u8 = 1 << 1;

/// Bit of CONF: nothing may be sent.
pub const SILENT: u8 = 1 << 2;

#[derive(Clone, Debug, PartialEq, Eq)]
pub struct Registers {
    pub bytes: [u8; 256],
}

impl Index<u8> for Registers {
    type Output = u8;

    fn index(&self, place: u8) -> &u8 {
        &self.bytes[place as usize]
    }
}

impl IndexMut<u8> for Registers {
    fn index_mut(&mut self, place: u8) -> &mut u8 {
        &mut self.bytes[place as usize]
    }
}

impl Registers {
    pub fn power_up(mac: u64, iid: u64, ver: u16) -> Registers {
        let mut registers = Registers { bytes: [0; 256] };
        registers.put(MAC, &mac.to_le_bytes());
        registers.put(IID, &iid.to_le_bytes());
        registers.put(VER, &ver.to_le_bytes());
        registers[TYP] = OUTPUT_MODULE_SIL2;
        registers[TID] = NO_TID;
        registers.put(SID, &[0xFF; 3]);
        registers[OUT_REP] = HOLD;
        registers[TCYC] = 0xFF;
        registers[STATUT] = REP;
        registers[CNF_REP] = 0x05;
        registers[CNF_CYC] = 0x02;
        registers[AD_REF] = 0x80;
        registers[SZ_REF] = 0x08;
        registers[GROUND] = NO_GROUND;
        registers.bytes[SPARE].fill(0xFF);
        registers
    }

    /// The bytes must fit from `place` on.
    pub fn put(&mut self, place: u8, bytes: &[u8]) {
        let place = place as usize;
        self.bytes[place..place + bytes.len()].copy_from_slice(bytes);
    }

    /// The low byte has the low address.
    fn number(&self, place: u8, width: usize) -> u64 {
        let place = place as usize;
        let bytes = &self.bytes[place..place + width];
        bytes
            .iter()
            .rev()
            .fold(0, |value, &byte| value << 8 | byte as u64)
    }

    pub fn mac(&self) -> u64 {
        self.number(MAC, 8)
    }

    pub fn iid(&self) -> u64 {
        self.number(IID, 8)
    }

    pub fn sid(&self) -> u32 {
        self.number(SID, 3) as u32
    }

    pub fn set_sid(&mut self, sid: u32) {
        self.put(SID, &sid.to_le_bytes()[..3]);
    }

    /// The inputs held: zeros, or those of the last tick call that was accepted.
    pub fn inputs(&self) -> [u8; 64] {
        self.bytes[INPUTS].try_into().expect("64 registers")
    }

    /// t
    pub fn tcyc(&self) -> u8 {
        self[TCYC]
    }

    /// n
    pub fn cnf_cyc(&self) -> u8 {
        self[CNF_CYC]
    }

    /// m
    pub fn cnf_rep(&self) -> u8 {
        self[CNF_REP]
    }

    /// Counters stop at 255.
    pub fn count(&mut self, counter: u8) {
        self[counter] = self[counter].saturating_add(1);
    }
}
