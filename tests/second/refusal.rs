//! "Numbers for a file"; 12 is unused (request R-9).

pub const SIZE: u8 = 1;
pub const CHAR: u8 = 2;
pub const PAIRS: u8 = 3;
pub const LENGTH: u8 = 4;
pub const CRC: u8 = 5;
pub const FORM: u8 = 6;
pub const COUNT: u8 = 7;
pub const REVISION: u8 = 8;
pub const DEVICE: u8 = 9;
pub const BURN: u8 = 10;
pub const SPOT: u8 = 11;
pub const SAME: u8 = 13;

/// A refusal: its number, the line, and the place in the line (request R-1), both counted from 1.
/// Line and place are 0 for 1 and from 7 on.
#[derive(Clone, Copy)]
pub struct Refusal {
    pub number: u8,
    pub line: usize,
    pub place: usize,
}

/// What stands in a refusal's place where there is none.
pub const ACCEPTED: Refusal = Refusal {
    number: 0,
    line: 0,
    place: 0,
};

/// A refusal that no line has.
pub fn refuse_whole(number: u8) -> Refusal {
    Refusal {
        number,
        line: 0,
        place: 0,
    }
}
