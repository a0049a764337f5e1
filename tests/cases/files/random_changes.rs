//! Accepted files with one random change.

use super::Files;
use crate::draft::Draft;
use crate::line::{line, HEADER, WRITE};

impl Files {
    pub(super) fn random_changes(&mut self) {
        for turn in 0..360 {
            let kind = self.rng.kind();
            let k = if self.rng.once_in(8) { 2 } else { 1 };
            let draft = self.draft(kind, k);
            match turn % 6 {
                0 => self.swapped_lines(&draft),
                1 => self.resealed(&draft),
                2 => self.line_count_changed(&draft),
                _ => self.changed_text(&draft),
            }
        }
    }

    fn changed_text(&mut self, draft: &Draft) {
        let mut text = self.styled(draft);
        let place = self.rng.below(text.len());
        let digit = self.rng.pick(b"0123456789ABCDEFabcdef");
        let any = self.rng.byte();
        let label = match self.rng.below(7) {
            0 => {
                text[place] = any;
                "byte-changed"
            }
            1 => {
                text[place] = digit;
                "digit-put"
            }
            2 => {
                text[place] ^= 1 << self.rng.below(8);
                "bit-changed"
            }
            3 => {
                text.insert(place, any);
                "byte-inserted"
            }
            4 => {
                text.insert(place, digit);
                "digit-inserted"
            }
            5 => {
                let end = self.rng.pick(b"\r\n");
                text.insert(place, end);
                "end-inserted"
            }
            _ => {
                text.remove(place);
                "byte-removed"
            }
        };
        self.open(label, &text);
    }

    fn swapped_lines(&mut self, draft: &Draft) {
        let mut draft = draft.clone();
        let n = draft.n();
        let first = self.rng.below(n);
        let second = if self.rng.once_in(3) {
            n - 1
        } else {
            self.rng.below(n)
        };
        draft.lines.swap(first, second);
        let text = self.styled(&draft);
        self.open("lines-swapped", &text);
    }

    /// One byte of a line changed, and the CRC made right again.
    fn resealed(&mut self, draft: &Draft) {
        let mut draft = draft.clone();
        let spots = [1, 2, draft.id_line(0), draft.crc_line(0), draft.n()];
        let number = if self.rng.once_in(2) {
            self.rng.pick(&spots)
        } else {
            draft.free_line(&mut self.rng)
        };
        let old = draft.get(number).to_vec();
        let mut bytes = old[..old.len() - 1].to_vec();
        let place = self.rng.from_to(2, bytes.len() - 1);
        bytes[place] ^= 1 << self.rng.below(8);
        let tag = if number <= 4 { HEADER } else { WRITE };
        draft.set(number, line(tag, bytes[2], bytes[3], &bytes[4..]));
        let text = self.styled(&draft);
        self.open("resealed", &text);
    }

    fn line_count_changed(&mut self, draft: &Draft) {
        let mut draft = draft.clone();
        let place = self.rng.below(draft.n());
        let label = if self.rng.once_in(2) {
            draft.lines.remove(place);
            "line-removed"
        } else {
            let twice = draft.lines[place].clone();
            draft.lines.insert(place, twice);
            "line-doubled"
        };
        let text = self.styled(&draft);
        self.open(label, &text);
    }
}
