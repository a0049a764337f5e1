//! "The PEC".

/// x^8 + x^2 + x + 1 without its highest term, which falls out of the eight bits.
const POLYNOMIAL: u8 = 0b0000_0111;

/// The remainder of the bytes, fed in bit by bit, the high bit first, from 0.
pub fn pec(bytes: &[u8]) -> u8 {
    let mut remainder = 0;
    for byte in bytes {
        for place in (0..8).rev() {
            remainder = pec_of_one_more_bit(remainder, (byte >> place) & 1);
        }
    }
    remainder
}

fn pec_of_one_more_bit(remainder: u8, bit: u8) -> u8 {
    let leaving = remainder >> 7;
    let shifted = remainder << 1;
    if leaving ^ bit == 1 {
        shifted ^ POLYNOMIAL
    } else {
        shifted
    }
}
