//! Bytes that are no digits, and lines with too few or too many digits: CHAR and PAIRS.

use super::{Files, PLAIN};
use crate::ending::at;
use crate::line::{header, line, takes, ADDRESS, HEADER, WRITE};
use crate::numbers::{CHAR, FORM, PAIRS};
use crate::spoil::{put_no_digits, Field, NO_DIGITS};
use crate::text::{capital, join, texts_of};

impl Files {
    /// Each of the 256 bytes in the place of a digit, in a text of four lines.
    pub(super) fn every_character(&mut self) {
        let draft = self.small_draft();
        let texts = texts_of(&draft)[..4].to_vec();
        for byte in 0..=255u8 {
            let number = self.rng.from_to(1, 4);
            let mut texts = texts.clone();
            let place = self.rng.below(texts[number - 1].len() - 1);
            texts[number - 1][place] = byte;
            let text = join(&mut self.rng, &texts, PLAIN);
            let label = format!("every-character-{byte:02x}");
            if byte.is_ascii_hexdigit() || byte == b'\n' {
                self.open(&label, &text);
            } else {
                self.want(CHAR, at(number, place + 1), &label, &text);
            }
        }
    }

    pub(super) fn characters(&mut self) {
        for &byte in NO_DIGITS {
            let draft = self.small_draft();
            let number = self.rng.from_to(1, draft.n());
            let mut digits = capital(draft.get(number));
            let last = digits.len() - 1;
            let place = self.rng.pick(&[0, 1, 8, last - 1, last]);
            digits[place] = byte;
            let text = self.with_line(&draft, number, &digits);
            let label = format!("char-{byte:02x}");
            self.want(CHAR, at(number, place + 1), &label, &text);
        }
    }

    /// Two or three bytes that are no digits, beside each other or far apart: the first is given.
    pub(super) fn several_characters(&mut self) {
        for turn in 0..9 {
            let draft = self.small_draft();
            let number = self.places(&draft)[turn];
            let good = capital(draft.get(number));
            let last = good.len();
            let (early, late) = (self.rng.from_to(1, 9), self.rng.from_to(10, last));
            for places in [
                vec![last, 1],
                vec![1, 2, 3],
                vec![last - 1, last],
                vec![late, early],
            ] {
                let mut digits = good.clone();
                let place = put_no_digits(&mut self.rng, &mut digits, &places);
                let text = self.with_line(&draft, number, &digits);
                let label = format!("chars-{}", places.len());
                self.want(CHAR, at(number, place), &label, &text);
            }
        }
    }

    /// Lines of given digit counts whose length byte and CRC are right where they can be.
    pub(super) fn digit_counts(&mut self) {
        let counts = [
            0, 1, 2, 3, 7, 8, 9, 10, 11, 12, 13, 14, 15, 16, 18, 73, 74, 75, 76, 77, 78, 100,
        ];
        for count in counts {
            let draft = self.small_draft();
            let middle = draft.free_line(&mut self.rng);
            for (number, tag, command) in [
                (3, HEADER, 0x01),
                (4, HEADER, 0x02),
                (5, WRITE, 0xC7),
                (middle, WRITE, 0xC6),
            ] {
                let digits = self.digits_of_count(count, tag, command);
                let text = self.with_line(&draft, number, &digits);
                let (wanted, place) = fault_of_count(number, command, count);
                // An empty last line would be none, but none of these is the last.
                let label = format!("digits-{count}");
                self.want(wanted, at(number, place), &label, &text);
            }
        }
    }

    /// Every odd count to past the most that a line may have, on any line.
    pub(super) fn odd_counts(&mut self) {
        for count in (1..80).step_by(2) {
            let draft = self.small_draft();
            let turn = self.rng.below(9);
            let number = self.places(&draft)[turn];
            let mut digits = capital(draft.get(number));
            digits.resize(count, b'0');
            let text = self.with_line(&draft, number, &digits);
            let label = format!("digits-odd-{count}");
            self.want(PAIRS, at(number, count + 1), &label, &text);
        }
    }

    fn digits_of_count(&mut self, count: usize, tag: u8, command: u8) -> Vec<u8> {
        let data_count = (count / 2).saturating_sub(5);
        let data = self.rng.bytes(data_count);
        let mut digits = capital(&line(tag, ADDRESS, command, &data));
        digits.resize(count, b'0');
        digits
    }

    pub(super) fn header_data_counts(&mut self) {
        for (number, command) in [(3, 0x01), (4, 0x02)] {
            for count in [0, 1, 2, 31, 32, 33, 34, 64] {
                let draft = self.small_draft();
                let data = self.rng.bytes(count);
                let text = self.with_line(&draft, number, &capital(&header(command, &data)));
                let digits = 10 + 2 * count;
                let (wanted, place) = fault_of_count(number, command, digits);
                let label = format!("header-{number}-data-{count}");
                self.want(wanted, at(number, place), &label, &text);
            }
        }
    }
}

/// The number and the place for a line of this many digits that is right in everything else.
fn fault_of_count(number: usize, command: u8, digits: usize) -> (u8, usize) {
    if digits % 2 == 1 || !(10..=74).contains(&digits) {
        (PAIRS, digits + 1)
    } else if takes(number, command, digits / 2 - 5) {
        (0, 0)
    } else {
        (FORM, Field::DataCount.place())
    }
}
