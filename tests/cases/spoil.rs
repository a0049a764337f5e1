//! Good lines spoiled by the faults 2 to 6, and the place that each fault has (document 02, R-1).

use crate::line::{line, takes, takes_command};
use crate::numbers::{CHAR, CRC, FORM, LENGTH, PAIRS};
use crate::random::Rng;
use crate::text::capital;

/// A field of the table, by the place of its first digit.
#[derive(Clone, Copy, PartialEq)]
pub enum Field {
    Tag = 1,
    Address = 5,
    Command = 7,
    DataCount = 9,
}

pub const FIELDS: [Field; 4] = [Field::Tag, Field::Address, Field::Command, Field::DataCount];

impl Field {
    pub fn place(self) -> usize {
        self as usize
    }
}

/// The place of the length byte, which is LENGTH's on every line.
pub const LENGTH_PLACE: usize = 3;

/// Bytes beside the digits, and others that are easily let through.
pub const NO_DIGITS: &[u8] = b"/:@G`g \t\0.-+xX_\x0B\x0C\x1A\x7F\x80\x85\xC5\xFF";

/// Commands of some row, and others beside them.
const COMMANDS: [u8; 14] = [
    0xAD, 0xAE, 0x01, 0x02, 0x00, 0x03, 0xC0, 0xC4, 0xC5, 0xC6, 0xC7, 0xC8, 0xE6, 0xE7,
];

/// The place and the digits of a good line of this number after the wanted faults among 2 to 6. They
/// are made from the largest number to the smallest, which has the place.
pub fn spoiled(rng: &mut Rng, number: usize, good: &[u8], faults: &[u8]) -> (usize, Vec<u8>) {
    let mut place = 0;
    let mut bytes = good.to_vec();
    if faults.contains(&FORM) {
        let first = rng.pick(&FIELDS);
        place = first.place();
        bytes = broken_from(rng, number, good, first);
    }
    if faults.contains(&CRC) {
        let last = bytes.len() - 1;
        place = 2 * last + 1;
        bytes[last] ^= 1 << rng.below(8);
    }
    if faults.contains(&LENGTH) {
        place = LENGTH_PLACE;
        bytes[1] ^= 1 << rng.below(8);
    }
    let mut digits = capital(&bytes);
    if faults.contains(&PAIRS) {
        match rng.below(4) {
            0 => digits.truncate(8),
            1 => digits.resize(76, b'0'),
            2 => digits.push(b'A'),
            _ => digits.truncate(digits.len() - 1),
        }
        place = digits.len() + 1;
    }
    if faults.contains(&CHAR) {
        let places: Vec<usize> = (0..rng.from_to(1, 3))
            .map(|_| rng.from_to(1, digits.len()))
            .collect();
        place = put_no_digits(rng, &mut digits, &places);
    }
    (place, digits)
}

/// Puts a byte that is no digit into each of these places, counted from 1, and gives the first.
pub fn put_no_digits(rng: &mut Rng, digits: &mut [u8], places: &[usize]) -> usize {
    for place in places {
        digits[place - 1] = rng.pick(NO_DIGITS);
    }
    places.iter().copied().min().unwrap_or(0)
}

/// A good line of this number with one field broken, and any of those behind it.
pub fn broken_from(rng: &mut Rng, number: usize, good: &[u8], first: Field) -> Vec<u8> {
    let fields: Vec<Field> = FIELDS
        .into_iter()
        .filter(|field| field.place() >= first.place())
        .filter(|&field| field == first || rng.once_in(2))
        .collect();
    broken(rng, number, good, &fields)
}

/// A good line of this number with these fields broken, length byte and CRC being right.
pub fn broken(rng: &mut Rng, number: usize, good: &[u8], fields: &[Field]) -> Vec<u8> {
    let (mut tag, mut address, mut command) = (good[0], good[2], good[3]);
    let mut data = good[4..good.len() - 1].to_vec();
    for field in fields {
        match field {
            Field::Tag => tag ^= rng.pick(&[0x49, 0x49, 0x01, 0x80, 0xC0]),
            Field::Address => address ^= rng.pick(&[0x01, 0x02, 0x80, 0xC0, 0x89]),
            Field::Command => {
                let mut others = COMMANDS.to_vec();
                others.retain(|&other| !takes_command(number, other));
                command = rng.pick(&others);
            }
            Field::DataCount => {
                let mut counts: Vec<usize> = (0..=32).collect();
                counts.retain(|&count| !takes(number, good[3], count));
                let count = rng.pick(&counts);
                data = rng.bytes(count);
            }
        }
    }
    line(tag, address, command, &data)
}
