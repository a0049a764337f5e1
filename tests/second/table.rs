//! The table of "Lines of the file", and the place at which a line breaks it (request R-1).

use std::ops::RangeInclusive;

use crate::lines::{Line, LINE_ADDRESS};

struct Row {
    lines: RangeInclusive<usize>,
    tag: u8,
    address: u8,
    commands: &'static [u8],
    data_bytes: RangeInclusive<usize>,
}

const fn row(
    lines: RangeInclusive<usize>,
    tag: u8,
    commands: &'static [u8],
    data_bytes: RangeInclusive<usize>,
) -> Row {
    Row {
        lines,
        tag,
        address: LINE_ADDRESS,
        commands,
        data_bytes,
    }
}

/// Rows 1 to 4 go by the line's number alone.
const TABLE: [Row; 6] = [
    row(1..=1, 0x49, &[0xAD], 4..=4),
    row(2..=2, 0x49, &[0xAE], 4..=4),
    row(3..=3, 0x49, &[0x01], 1..=32),
    row(4..=4, 0x49, &[0x02], 1..=32),
    row(5..=usize::MAX, 0x00, &[0xC7, 0xE7], 2..=2),
    row(5..=usize::MAX, 0x00, &[0xC5, 0xC6], 4..=4),
];

/// The place of the first field that no row allows for this line number, given the fields before it:
/// "tag before address before command before data count (places 1, 5, 7 and 9)".
pub fn first_broken_field(line: &Line, number: usize) -> Option<usize> {
    let fields: [(usize, fn(&Row, &Line) -> bool); 4] = [
        (1, |row, line| row.tag == line.tag),
        (5, |row, line| row.address == line.address),
        (7, |row, line| row.commands.contains(&line.command)),
        (9, |row, line| row.data_bytes.contains(&line.data.len())),
    ];
    let mut rows: Vec<&Row> = TABLE
        .iter()
        .filter(|row| row.lines.contains(&number))
        .collect();
    for (place, allows) in fields {
        rows.retain(|row| allows(row, line));
        if rows.is_empty() {
            return Some(place);
        }
    }
    None
}
