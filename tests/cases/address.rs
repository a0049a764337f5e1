//! The address in use (document 02, R-2): "a write address, even, 10 to EE hex; the read address is
//! one more".

use crate::line::ADDRESS;
use crate::random::Rng;

pub fn allows_address(address: u8) -> bool {
    address % 2 == 0 && (0x10..=0xEE).contains(&address)
}

pub fn read_address(address: u8) -> u8 {
    address.wrapping_add(1)
}

/// An address that is allowed and not C0.
pub fn address_elsewhere(rng: &mut Rng) -> u8 {
    loop {
        let address = rng.byte();
        if allows_address(address) && address != ADDRESS {
            return address;
        }
    }
}

/// An address for random sessions: C0 once in four, mostly another that is allowed, and now and then
/// any byte.
pub fn random_address(rng: &mut Rng) -> u8 {
    match rng.below(8) {
        0 | 1 => ADDRESS,
        2 => rng.byte(),
        _ => address_elsewhere(rng),
    }
}
