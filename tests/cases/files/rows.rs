//! Lines that break the table of rows: FORM.

use super::Files;
use crate::ending::at;
use crate::line::{burn, header, line, takes, takes_command, write, ADDRESS, HEADER, WRITE};
use crate::numbers::FORM;
use crate::spoil::{broken, Field, FIELDS};
use crate::text::capital;

impl Files {
    /// Each row with one field wrong, its length byte and CRC being right.
    pub(super) fn wrong_fields(&mut self) {
        for turn in 0..9 {
            let draft = self.small_draft();
            let number = self.places(&draft)[turn];
            for (field, label, wrong) in wrong_rows(draft.get(number), number) {
                let text = self.with_line(&draft, number, &capital(&wrong));
                let at = at(number, field.place());
                self.want(FORM, at, &format!("row-{label}"), &text);
            }
        }
    }

    /// Every set of two and more wrong fields: the first is given.
    pub(super) fn fields_together(&mut self) {
        for turn in 0..9 {
            let draft = self.small_draft();
            let number = self.places(&draft)[turn];
            for set in 1..16u8 {
                let fields: Vec<Field> = (0..4)
                    .filter(|&field| set >> field & 1 == 1)
                    .map(|field| FIELDS[field])
                    .collect();
                if fields.len() > 1 {
                    let wrong = broken(&mut self.rng, number, draft.get(number), &fields);
                    let text = self.with_line(&draft, number, &capital(&wrong));
                    let at = at(number, fields[0].place());
                    self.want(FORM, at, &format!("row-{}-fields", fields.len()), &text);
                }
            }
        }
    }

    /// Each command of a write line with counts of data bytes that its row has not, the other row's
    /// among them.
    pub(super) fn counts_of_write_rows(&mut self) {
        for command in [0xC5, 0xC6, 0xC7, 0xE7] {
            for count in [0, 1, 2, 3, 4, 5, 6, 32] {
                let draft = self.small_draft();
                let number = self.rng.from_to(5, draft.n());
                if !takes(number, command, count) {
                    let wrong = write(command, &self.rng.bytes(count));
                    let text = self.with_line(&draft, number, &capital(&wrong));
                    let label = format!("row-{command:02x}-count-{count}");
                    self.want(FORM, at(number, Field::DataCount.place()), &label, &text);
                }
            }
        }
    }

    /// Each row's command and data on each line that has another row: under the tag of that line no
    /// row has the command, under the other tag it is the tag.
    pub(super) fn rows_by_number(&mut self) {
        let headers = [(1, 0xAD, 4), (2, 0xAE, 4), (3, 0x01, 3), (4, 0x02, 1)];
        let writes = [(5, 0xC7, 2), (5, 0xE7, 2), (5, 0xC5, 4), (5, 0xC6, 4)];
        for (home, command, count) in headers.into_iter().chain(writes) {
            for number in 1..=5 {
                if number == home {
                    continue;
                }
                let data = self.rng.bytes(count);
                for tag in [HEADER, WRITE] {
                    let draft = self.small_draft();
                    let row = line(tag, ADDRESS, command, &data);
                    let text = self.with_line(&draft, number, &capital(&row));
                    let field = if (tag == HEADER) == (number < 5) {
                        Field::Command
                    } else {
                        Field::Tag
                    };
                    let label = format!("row-{tag:02x}-{command:02x}-at-{number}");
                    self.want(FORM, at(number, field.place()), &label, &text);
                }
            }
        }
    }

    pub(super) fn rows_in_other_places(&mut self) {
        for (first, second) in [(1, 2), (3, 4), (1, 3), (2, 4), (4, 5), (1, 5)] {
            let mut draft = self.small_draft();
            draft.lines.swap(first - 1, second - 1);
            let text = self.styled(&draft);
            let label = format!("row-{first}-and-{second}-swapped");
            self.want(FORM, at(first, place_of_row(second)), &label, &text);
        }
        for number in 1..=4 {
            let mut draft = self.small_draft();
            draft.set(number, burn());
            let text = self.styled(&draft);
            let label = format!("row-burn-at-{number}");
            self.want(FORM, at(number, Field::Tag.place()), &label, &text);
        }
        for number in 1..=4 {
            let mut draft = self.small_draft();
            draft.lines.remove(number - 1);
            let text = self.styled(&draft);
            let label = format!("row-{number}-missing");
            self.want(FORM, at(number, place_of_row(number + 1)), &label, &text);
        }
        let mut short = self.small_draft();
        short.lines.truncate(3);
        short.set(3, header(0x02, b"5.4"));
        let text = self.styled(&short);
        self.want(FORM, at(3, 7), "row-3-wrong-in-three-lines", &text);
    }
}

/// The place of the fault where the line of this number stands as another one of the header: a
/// header line has another command, a write line another tag.
fn place_of_row(number: usize) -> usize {
    if number <= 4 {
        Field::Command.place()
    } else {
        Field::Tag.place()
    }
}

/// Lines that break the table in one field each. A command that another row of write lines has
/// leaves the data count wrong.
fn wrong_rows(good: &[u8], number: usize) -> Vec<(Field, String, Vec<u8>)> {
    let (tag, address, command) = (good[0], good[2], good[3]);
    let data = &good[4..good.len() - 1];
    let mut rows = Vec::new();
    for wrong in [tag ^ 0x49, tag ^ 0x01, tag ^ 0x80] {
        let label = format!("tag-{wrong:02x}");
        rows.push((Field::Tag, label, line(wrong, address, command, data)));
    }
    for wrong in [0xC1, 0x40, 0x00, 0xC2] {
        let label = format!("address-{wrong:02x}");
        rows.push((Field::Address, label, line(tag, wrong, command, data)));
    }
    for wrong in [
        0xAD, 0xAE, 0x01, 0x02, 0x00, 0xC4, 0xC5, 0xC6, 0xC7, 0xC8, 0xE7, 0xE6,
    ] {
        if !takes(number, wrong, data.len()) {
            let field = if takes_command(number, wrong) {
                Field::DataCount
            } else {
                Field::Command
            };
            let label = format!("command-{wrong:02x}");
            rows.push((field, label, line(tag, address, wrong, data)));
        }
    }
    for count in [0, 1, 2, 3, 4, 5, 32] {
        if !takes(number, command, count) {
            let label = format!("count-{count}");
            let row = line(tag, address, command, &vec![0x5A; count]);
            rows.push((Field::DataCount, label, row));
        }
    }
    rows
}
