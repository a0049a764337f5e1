//! Identifier and CRC lines that carry something else, and equal identifiers: SPOT and SAME.

use super::{Files, PLAIN};
use crate::draft::{Draft, Kind, BOTH};
use crate::ending::WHOLE;
use crate::line::write;
use crate::numbers::{SAME, SPOT};
use crate::text::{join, texts_of, Letters, Style};

impl Files {
    pub(super) fn spots(&mut self) {
        self.each_config(3, |files, draft, config| {
            for (label, number) in [
                ("id", draft.id_line(config)),
                ("crc", draft.crc_line(config)),
            ] {
                files.spoil_spot(&draft, number, label);
            }
        });
        for kind in BOTH {
            for config in [0, 7] {
                let draft = self.draft(kind, 8);
                let number = draft.crc_line(config);
                self.spoil_spot(&draft, number, "k8-crc");
            }
        }
        // The lines beside a spot may carry anything.
        self.each_config(2, |files, mut draft, config| {
            for spot in [draft.id_line(config), draft.crc_line(config)] {
                draft.set(spot - 1, write(0xC5, &files.rng.bytes(4)));
                draft.set(spot + 1, write(0xE7, &[0x01, 0x00]));
            }
            files.put_whole(0, "spot-neighbours", &draft);
        });
    }

    fn spoil_spot(&mut self, draft: &Draft, number: usize, label: &str) {
        let data = draft.get(number)[4..8].to_vec();
        let others = [("c5", write(0xC5, &data)), ("c7", write(0xC7, &data[..2]))];
        for (command, other) in others {
            let mut spoiled = draft.clone();
            spoiled.set(number, other);
            self.put_whole(SPOT, &format!("spot-{label}-{command}"), &spoiled);
        }
    }

    /// Equal identifiers in every pair of configurations.
    pub(super) fn identifier_pairs(&mut self) {
        for k in [2, 3, 4, 8] {
            for second in 1..k {
                for first in 0..second {
                    let kind = self.rng.kind();
                    let mut draft = self.draft(kind, k);
                    let identifier = draft.identifier(first);
                    self.set_identifier(&mut draft, second, identifier);
                    self.put_whole(SAME, &format!("same-k{k}-{first}-{second}"), &draft);
                }
            }
        }
    }

    pub(super) fn identifier_digits(&mut self) {
        for identifier in 0..16u8 {
            let kind = self.rng.kind();
            let mut draft = self.draft(kind, 2);
            let other = (identifier + 1) % 16;
            draft.set(draft.id_line(0), write(0xC6, &[0x30 | identifier, 1, 2, 3]));
            draft.set(draft.id_line(1), write(0xC6, &[0x40 | identifier, 1, 2, 3]));
            self.put_whole(SAME, &format!("ninth-digit-differs-{identifier:x}"), &draft);
            draft.set(draft.id_line(1), write(0xC6, &[0x30 | other, 1, 2, 3]));
            self.put_whole(0, &format!("ninth-digit-equal-{identifier:x}"), &draft);
        }
        for kind in BOTH {
            for first in [0, 8] {
                let mut draft = self.draft(kind, 8);
                for config in 0..8 {
                    self.set_identifier(&mut draft, config, first + config as u8);
                }
                self.put_whole(0, &format!("identifiers-from-{first}"), &draft);
            }
        }
        let mut letters = self.draft(Kind::Production, 2);
        self.set_identifier(&mut letters, 0, 0xB);
        self.set_identifier(&mut letters, 1, 0xB);
        let mut texts = texts_of(&letters);
        texts[letters.id_line(1) - 1].make_ascii_lowercase();
        let text = join(
            &mut self.rng,
            &texts,
            Style {
                letters: Letters::Capital,
                ..PLAIN
            },
        );
        self.want(SAME, WHOLE, "same-in-capital-and-small", &text);
    }

    pub(super) fn set_identifier(&mut self, draft: &mut Draft, config: usize, identifier: u8) {
        draft.set_identifier(&mut self.rng, config, identifier);
    }
}
