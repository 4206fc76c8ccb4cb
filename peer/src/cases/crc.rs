//! crc_cases: 00 (FCS) or 01 (safety) and the bytes; the answer is their CRC.

use crate::crc::{crc, FCS, SAFETY};

pub fn answer(case: &[u8]) -> Option<Vec<u8>> {
    let (operation, bytes) = case.split_first()?;
    let polynomial = match operation {
        0 => FCS,
        1 => SAFETY,
        _ => return None,
    };
    Some(crc(polynomial, bytes).to_be_bytes().to_vec())
}
