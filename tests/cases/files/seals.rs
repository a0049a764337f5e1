//! Wrong length bytes and wrong last bytes: LENGTH and CRC.

use super::Files;
use crate::ending::at;
use crate::line::{header, pec};
use crate::numbers::{CRC, LENGTH};
use crate::spoil::LENGTH_PLACE;
use crate::text::capital;

impl Files {
    pub(super) fn lengths(&mut self) {
        for turn in 0..9 {
            let draft = self.small_draft();
            let number = self.places(&draft)[turn];
            let right = draft.get(number)[1];
            let wrongs = [right + 1, right - 1, right + 2, 0, 0xFF, right ^ 0x80];
            for wrong in wrongs {
                let mut bytes = draft.get(number).to_vec();
                bytes[1] = wrong;
                let text = self.with_line(&draft, number, &capital(&bytes));
                let label = format!("length-{wrong}-for-{right}");
                self.want(LENGTH, at(number, LENGTH_PLACE), &label, &text);
            }
        }
        for turn in 2..9 {
            let mut draft = self.small_draft();
            draft.set(3, header(0x01, &[0x31, 0x32, 0x33]));
            draft.set(4, header(0x02, &[0x31, 0x32]));
            let number = self.places(&draft)[turn];
            let mut longer = draft.get(number).to_vec();
            longer.insert(4, 0x00);
            let text = self.with_line(&draft, number, &capital(&longer));
            self.want(
                LENGTH,
                at(number, LENGTH_PLACE),
                "length-one-byte-more",
                &text,
            );
            let mut shorter = draft.get(number).to_vec();
            shorter.remove(4);
            let text = self.with_line(&draft, number, &capital(&shorter));
            self.want(
                LENGTH,
                at(number, LENGTH_PLACE),
                "length-one-byte-less",
                &text,
            );
        }
    }

    pub(super) fn crcs(&mut self) {
        for turn in 0..9 {
            let draft = self.small_draft();
            let number = self.places(&draft)[turn];
            let good = draft.get(number).to_vec();
            let last = good.len() - 1;
            let mut wrongs: Vec<(String, u8)> = (0..8)
                .map(|bit| (format!("bit-{bit}"), good[last] ^ (1 << bit)))
                .collect();
            wrongs.push(("with-tag-and-length".into(), pec(&good[..last])));
            wrongs.push(("with-length".into(), pec(&good[1..last])));
            wrongs.push(("without-address".into(), pec(&good[3..last])));
            wrongs.push(("inverted".into(), !good[last]));
            for (label, wrong) in wrongs {
                if wrong != good[last] {
                    let mut bytes = good.clone();
                    bytes[last] = wrong;
                    let text = self.with_line(&draft, number, &capital(&bytes));
                    let at = at(number, 2 * last + 1);
                    self.want(CRC, at, &format!("crc-{label}"), &text);
                }
            }
        }
    }

    /// A wrong last byte on lines 3 and 4 with every count of data bytes. Without data the line also
    /// breaks the table, which is tried after.
    pub(super) fn crcs_of_every_length(&mut self) {
        for (number, command) in [(3, 0x01), (4, 0x02)] {
            for count in 0..=32 {
                let draft = self.small_draft();
                let mut bytes = header(command, &self.rng.bytes(count));
                bytes[count + 4] ^= 1 << self.rng.below(8);
                let text = self.with_line(&draft, number, &capital(&bytes));
                let digits = 10 + 2 * count;
                let label = format!("crc-of-{digits}-digits");
                self.want(CRC, at(number, digits - 1), &label, &text);
            }
        }
    }
}
