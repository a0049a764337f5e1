//! The bytes of single lines.

use crate::random::Rng;

pub const HEADER: u8 = 0x49;
pub const WRITE: u8 = 0x00;
/// The address that every line says. A session may use another (document 02, R-2).
pub const ADDRESS: u8 = 0xC0;

/// The burn's command and data.
pub const BURN: (u8, [u8; 2]) = (0xE7, [0x08, 0x00]);

/// The commands that a line of this number takes, each with the fewest and the most data bytes.
fn row(number: usize) -> &'static [(u8, usize, usize)] {
    match number {
        1 => &[(0xAD, 4, 4)],
        2 => &[(0xAE, 4, 4)],
        3 => &[(0x01, 1, 32)],
        4 => &[(0x02, 1, 32)],
        _ => &[(0xC7, 2, 2), (0xE7, 2, 2), (0xC5, 4, 4), (0xC6, 4, 4)],
    }
}

/// Whether a line of this number takes a command with some count of data bytes.
pub fn takes_command(number: usize, command: u8) -> bool {
    row(number).iter().any(|&(takes, _, _)| takes == command)
}

/// Whether a line of this number takes a command with so many data bytes.
pub fn takes(number: usize, command: u8, count: usize) -> bool {
    row(number)
        .iter()
        .any(|&(takes, low, high)| takes == command && (low..=high).contains(&count))
}

/// The packet error code, whole bytes shifted by the polynomial 107.
pub fn pec(bytes: &[u8]) -> u8 {
    bytes.iter().fold(0, |before, byte| {
        let mut value = u32::from(before ^ byte) << 8;
        for place in (8..16).rev() {
            if value >> place & 1 == 1 {
                value ^= 0x107 << (place - 8);
            }
        }
        value as u8
    })
}

/// A line's bytes, with right length byte and CRC.
pub fn line(tag: u8, address: u8, command: u8, data: &[u8]) -> Vec<u8> {
    let mut bytes = vec![tag, data.len() as u8 + 3, address, command];
    bytes.extend_from_slice(data);
    bytes.push(pec(&bytes[2..]));
    bytes
}

pub fn header(command: u8, data: &[u8]) -> Vec<u8> {
    line(HEADER, ADDRESS, command, data)
}

pub fn write(command: u8, data: &[u8]) -> Vec<u8> {
    line(WRITE, ADDRESS, command, data)
}

pub fn burn() -> Vec<u8> {
    write(BURN.0, &BURN.1)
}

/// Two-byte data that the session itself also sends with C7 or E7.
const FAMILIAR: [[u8; 2]; 8] = [
    [0xA2, 0x00],
    [0x35, 0x00],
    [0x87, 0xBD],
    [0x7E, 0x00],
    [0x7F, 0x00],
    [0x94, 0x00],
    [0x02, 0x00],
    [0x00, 0x08],
];

/// A write line that is no burn.
pub fn random_write(rng: &mut Rng) -> Vec<u8> {
    match rng.below(10) {
        0..=4 => {
            let data = if rng.once_in(4) {
                rng.pick(&FAMILIAR).to_vec()
            } else {
                rng.bytes(2)
            };
            write(0xC7, &data)
        }
        5 => random_e7(rng),
        6 | 7 => write(0xC5, &rng.bytes(4)),
        _ => write(0xC6, &rng.bytes(4)),
    }
}

fn random_e7(rng: &mut Rng) -> Vec<u8> {
    loop {
        let data = if rng.once_in(2) {
            rng.pick(&FAMILIAR).to_vec()
        } else {
            rng.bytes(2)
        };
        if data != BURN.1 {
            return write(BURN.0, &data);
        }
    }
}
