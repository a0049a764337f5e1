//! The text that is lent at every call, and the write line of it that is due: the second place of 15.

use crate::lines::{line_at, read_line, Line};

/// The write line of this number that stands at a place of the lent text, with the place behind it.
/// None is 15 STATE: "the text from the held place of the lent file is not a line that passes 2 to 6
/// as a write line, or it is the burn and not line n, or line n and not the burn".
pub fn write_line_at(lent: &[u8], place: usize, number: usize, n: usize) -> Option<(Line, usize)> {
    let (text, behind) = line_at(lent, place)?;
    let line = read_line(text, number).ok()?;
    (line.is_burn() == (number == n)).then(|| (line, behind))
}
