//! The burn missing at the end, or standing earlier: BURN.

use super::Files;
use crate::draft::BOTH;
use crate::line::{burn, write, BURN};
use crate::numbers::BURNS;

impl Files {
    pub(super) fn last_line_no_burn(&mut self) {
        let (command, data) = BURN;
        let lasts = [
            ("c7-08-00", write(0xC7, &data)),
            ("e7-00-08", write(command, &[0x00, 0x08])),
            ("e7-08-01", write(command, &[0x08, 0x01])),
            ("e7-09-00", write(command, &[0x09, 0x00])),
            ("e7-80-00", write(command, &[0x80, 0x00])),
            ("c5", write(0xC5, &[0x08, 0, 0, 0])),
            ("c6", write(0xC6, &[0x08, 0, 0, 0])),
        ];
        for (label, last) in lasts {
            let mut draft = self.small_draft();
            let n = draft.n();
            draft.set(n, last.clone());
            self.put_whole(BURNS, &format!("last-line-{label}"), &draft);
            draft.set(n - 1, burn());
            self.put_whole(BURNS, &format!("last-line-{label}-burn-before"), &draft);
        }
    }

    pub(super) fn early_burns(&mut self) {
        for kind in BOTH {
            for k in 1..=2 {
                let draft = self.draft(kind, k);
                let n = draft.n();
                let free = draft.free_line(&mut self.rng);
                for number in [5, 6, 11, 13, free, n - 2, n - 1] {
                    let mut early = draft.clone();
                    early.set(number, burn());
                    self.put_whole(BURNS, &format!("early-burn-{number}"), &early);
                }
            }
        }
        self.each_config(3, |files, draft, config| {
            for (label, number) in [
                ("id", draft.id_line(config)),
                ("crc", draft.crc_line(config)),
            ] {
                let mut early = draft.clone();
                early.set(number, burn());
                files.put_whole(BURNS, &format!("early-burn-{label}-{config}"), &early);
            }
        });
    }

    /// Lines that look like a burn and are none.
    pub(super) fn nearly_burns(&mut self) {
        for (command, data) in [
            (0xC7, [0x08, 0x00]),
            (0xE7, [0x00, 0x08]),
            (0xE7, [0x08, 0x08]),
        ] {
            let draft = self.small_draft();
            let free = draft.free_line(&mut self.rng);
            for number in [5, free, draft.n() - 1] {
                let mut near = draft.clone();
                near.set(number, write(command, &data));
                let label = format!("no-burn-{command:02x}-{:02x}{:02x}", data[0], data[1]);
                self.put_whole(0, &label, &near);
            }
        }
    }
}
