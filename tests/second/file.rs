//! "The whole file": an accepted file, and the numbers 1, 7 to 11 and 13.

use crate::bytes::{highest_first, lowest_first};
use crate::kind::Kind;
use crate::lines::{lines_of, read_line, Line};
use crate::refusal::{refuse_whole, Refusal, BURN, COUNT, DEVICE, REVISION, SAME, SIZE, SPOT};

const LONGEST_FILE: usize = 65_536;

/// The middle bytes of the 29 accepted identities.
const MIDDLE_BYTES: [u8; 29] = [
    0x81, 0x90, 0xAF, 0xAE, 0x8F, 0x8E, 0xB4, 0xB2, 0xB3, 0xB5, 0xB6, 0x82, 0x97, 0x98, 0x96, 0x88,
    0x8A, 0x9B, 0x9C, 0x8B, 0x8D, 0xA4, 0xA2, 0x9D, 0x7F, 0xB1, 0x80, 0x86, 0x87,
];

/// An accepted file.
pub struct Image {
    pub kind: Kind,
    pub configs: usize,
    pub lines: Vec<Line>,
}

impl Image {
    /// The line of a number counted from 1.
    pub fn line(&self, number: usize) -> &Line {
        &self.lines[number - 1]
    }

    /// The four bytes of line 1, highest first.
    pub fn identity(&self) -> u32 {
        highest_first(&self.line(1).data)
    }

    /// The tenth digit of the identifier line: the low half of its first data byte.
    pub fn identifier(&self, config: usize) -> u8 {
        tenth_digit(self.line(self.kind.identifier_line(config)))
    }

    /// The four data bytes of the CRC line, lowest first.
    pub fn configuration_crc(&self, config: usize) -> u32 {
        lowest_first(&self.line(self.kind.crc_line(config)).data)
    }
}

fn tenth_digit(line: &Line) -> u8 {
    line.data[0] % 16
}

/// The refusal number of a file, 0 if accepted.
pub fn number(text: &[u8]) -> u8 {
    check_file(text).map_or_else(|refusal| refusal.number, |_| 0)
}

/// Checks a file in the order given under "Numbers for a file".
pub fn check_file(text: &[u8]) -> Result<Image, Refusal> {
    if text.len() > LONGEST_FILE {
        return Err(refuse_whole(SIZE));
    }
    check_lines(read_lines(text)?).map_err(refuse_whole)
}

/// All lines, or the refusal of the first faulty one.
fn read_lines(text: &[u8]) -> Result<Vec<Line>, Refusal> {
    (1..)
        .zip(lines_of(text))
        .map(|(line, text)| read_line(text, line))
        .collect()
}

/// "then 7 for under 13 lines, 8, 9, 7 for n, 10, 12, 11, 13", less 12, which is unused.
fn check_lines(lines: Vec<Line>) -> Result<Image, u8> {
    if lines.len() < 13 {
        return Err(COUNT);
    }
    let kind = Kind::from_revision(lines[1].data[0]).ok_or(REVISION)?;
    if !is_accepted_identity(&lines[0].data) {
        return Err(DEVICE);
    }
    let configs = kind.configurations(lines.len()).ok_or(COUNT)?;
    let image = Image {
        kind,
        configs,
        lines,
    };
    check_burn(&image)?;
    check_spots(&image)?;
    check_identifiers(&image)?;
    Ok(image)
}

fn is_accepted_identity(data: &[u8]) -> bool {
    MIDDLE_BYTES
        .iter()
        .any(|&middle| data == [0x49, 0xD2, middle, 0x00])
}

/// 10: the last line is the burn, and no earlier line is.
fn check_burn(image: &Image) -> Result<(), u8> {
    let n = image.lines.len();
    let earlier = (5..n).any(|number| image.line(number).is_burn());
    if image.line(n).is_burn() && !earlier {
        Ok(())
    } else {
        Err(BURN)
    }
}

/// 11: the identifier and CRC lines carry C6. They lie in the file, since n = 12 + s x k.
fn check_spots(image: &Image) -> Result<(), u8> {
    let carries_c6 = |number| image.line(number).command == 0xC6;
    let carried = (0..image.configs).all(|config| {
        carries_c6(image.kind.identifier_line(config)) && carries_c6(image.kind.crc_line(config))
    });
    if carried {
        Ok(())
    } else {
        Err(SPOT)
    }
}

/// 13: identifiers in one file differ.
fn check_identifiers(image: &Image) -> Result<(), u8> {
    let mut seen = [false; 16];
    for config in 0..image.configs {
        let identifier = usize::from(image.identifier(config));
        if seen[identifier] {
            return Err(SAME);
        }
        seen[identifier] = true;
    }
    Ok(())
}
