//! "Lines of the file": cutting a text into lines, and the numbers 2 to 6 of one line, each with its
//! place (request R-1).

use crate::pec::pec;
use crate::refusal::{Refusal, CHAR, CRC, FORM, LENGTH, PAIRS};
use crate::table::first_broken_field;

/// What every line says, whatever address is in use: "The file still says C0 and its CRC is still
/// judged so" (R-2).
pub const LINE_ADDRESS: u8 = 0xC0;

/// The place of the length byte's first digit, behind the two of the tag.
const LENGTH_PLACE: usize = 3;

/// A good line, without its length byte and its CRC.
pub struct Line {
    pub tag: u8,
    pub address: u8,
    pub command: u8,
    pub data: Vec<u8>,
}

impl Line {
    /// "The last line is E7 with 08 00, the burn".
    pub fn is_burn(&self) -> bool {
        self.command == 0xE7 && self.data == [0x08, 0x00]
    }
}

/// The lines of a text, without their ends. A CR is part of the end only directly before an LF;
/// text after the last LF is a line unless it is empty.
pub fn lines_of(text: &[u8]) -> Vec<&[u8]> {
    let mut pieces: Vec<&[u8]> = text.split(|&byte| byte == b'\n').collect();
    let after_last_lf = pieces.pop().unwrap_or_default();
    let mut lines: Vec<&[u8]> = pieces
        .into_iter()
        .map(|piece| piece.strip_suffix(b"\r").unwrap_or(piece))
        .collect();
    if !after_last_lf.is_empty() {
        lines.push(after_last_lf);
    }
    lines
}

/// The place, in bytes from 0, at which the line of a number counted from 1 begins.
pub fn place_of_line(text: &[u8], number: usize) -> usize {
    text.split_inclusive(|&byte| byte == b'\n')
        .take(number - 1)
        .map(<[u8]>::len)
        .sum()
}

/// The line that begins at this place, without its end, and the place behind it. At or past the
/// text's end there is none.
pub fn line_at(text: &[u8], place: usize) -> Option<(&[u8], usize)> {
    let rest = text.get(place..)?;
    let with_its_end = rest.split_inclusive(|&byte| byte == b'\n').next()?;
    let line = lines_of(with_its_end).into_iter().next()?;
    Some((line, place + with_its_end.len()))
}

/// The value of a digit 0-9, A-F or a-f.
fn digit_value(byte: u8) -> Option<u8> {
    match byte {
        b'0'..=b'9' => Some(byte - b'0'),
        b'A'..=b'F' => Some(byte - b'A' + 10),
        b'a'..=b'f' => Some(byte - b'a' + 10),
        _ => None,
    }
}

/// Reads the line of this number (from 1), trying 2 to 6 in order.
pub fn read_line(text: &[u8], line: usize) -> Result<Line, Refusal> {
    let refuse = |number, place| Refusal {
        number,
        line,
        place,
    };
    let digits = digits_of(text).map_err(|place| refuse(CHAR, place))?;
    if digits.len() % 2 == 1 || digits.len() < 10 || digits.len() > 74 {
        return Err(refuse(PAIRS, digits.len() + 1));
    }
    let bytes: Vec<u8> = digits
        .chunks(2)
        .map(|pair| pair[0] * 16 + pair[1])
        .collect();
    if usize::from(bytes[1]) != bytes.len() - 2 {
        return Err(refuse(LENGTH, LENGTH_PLACE));
    }
    let last = bytes.len() - 1;
    if pec(&bytes[2..last]) != bytes[last] {
        return Err(refuse(CRC, digits.len() - 1));
    }
    let read = Line {
        tag: bytes[0],
        address: bytes[2],
        command: bytes[3],
        data: bytes[4..last].to_vec(),
    };
    match first_broken_field(&read, line) {
        Some(place) => Err(refuse(FORM, place)),
        None => Ok(read),
    }
}

/// The values of a line's digits, or the place of the first byte that is none.
fn digits_of(text: &[u8]) -> Result<Vec<u8>, usize> {
    (1..)
        .zip(text)
        .map(|(place, &byte)| digit_value(byte).ok_or(place))
        .collect()
}
