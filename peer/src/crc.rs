//! The two CRCs of the bus, bit by bit: start FFFFh, most significant bit first, no final change.

/// x^16 + x^12 + x^5 + 1
pub const FCS: u16 = 0x1021;

/// x^16 + x^15 + x^12 + x^7 + x^6 + x^4 + x^3 + 1
pub const SAFETY: u16 = 0x90D9;

const START: u16 = 0xFFFF;

pub fn crc(polynomial: u16, bytes: &[u8]) -> u16 {
    let mut register = START;
    for byte in bytes {
        for place in (0..8).rev() {
            let bit = (byte >> place) & 1 == 1;
            register = shift_in(polynomial, register, bit);
        }
    }
    register
}

/// One step of the division: the bit that leaves the register and the bit that comes in
/// decide together whether the polynomial is subtracted.
fn shift_in(polynomial: u16, register: u16, bit: bool) -> u16 {
    let leaving = register & 0x8000 != 0;
    let shifted = register << 1;
    if leaving != bit {
        shifted ^ polynomial
    } else {
        shifted
    }
}
