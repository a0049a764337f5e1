//! The numbers that a case is made for, by their names on the page.

pub const SIZE: u8 = 1;
pub const CHAR: u8 = 2;
pub const PAIRS: u8 = 3;
pub const LENGTH: u8 = 4;
pub const CRC: u8 = 5;
pub const FORM: u8 = 6;
pub const COUNT: u8 = 7;
pub const REVISION: u8 = 8;
pub const DEVICE: u8 = 9;
pub const BURNS: u8 = 10;
pub const SPOT: u8 = 11;
pub const SAME: u8 = 13;
