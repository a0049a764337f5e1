//! Verdicts 29 to 31: what the device says after the burn.

use super::Sessions;
use crate::device::right_banks;
use crate::draft::Kind;

impl Sessions {
    pub(super) fn polls(&mut self) {
        for limit in [1, 2, 7] {
            for clear in 0..limit {
                self.put_polls("want0", limit, vec![0; clear], Some(0x01));
            }
            for status in [0x00, 0x3E, 0x40, 0xFFFF_FFFE] {
                self.put_polls("want29", limit, vec![status; limit], None);
            }
            for status in [0x03, 0x09, 0x3F] {
                let clear = self.rng.below(limit);
                self.put_polls("want29", limit, vec![0x08; clear], Some(status));
            }
        }
        for clear in [1, 30, 9_999] {
            self.put_polls("want0", 10_000, vec![0x02; clear], Some(0x41));
        }
        self.put_polls("want29", 10_000, vec![0x00; 10_000], None);
        self.put_polls("want29", 10_000, vec![0x00; 9_999], Some(0x21));
        // A clear bit 0 is not judged before the limit is used, whatever the other bits are.
        for status in [0x02, 0x08, 0x20, 0x3E, 0xC0] {
            self.put_polls("want0", 7, vec![status; 3], Some(0x01));
        }
    }

    fn put_polls(&mut self, want: &str, limit: usize, mut statuses: Vec<u32>, last: Option<u32>) {
        let label = format!("{want}-limit{limit}-{}-clear", statuses.len());
        statuses.extend(last);
        let kind = self.rng.kind();
        self.put_device(&label, kind, 1, |session| {
            session.settings.poll_limit = limit as u16;
            session.device.statuses = statuses;
        });
    }

    /// Bit 0 with each other bit: 1 to 5 are judged, the others are not.
    pub(super) fn statuses(&mut self) {
        for bit in 1..32 {
            let verdict = if bit <= 5 { 29 } else { 0 };
            let kind = self.rng.kind();
            self.put_device(
                &format!("want{verdict}-status-bit-{bit}"),
                kind,
                1,
                |session| {
                    session.device.statuses = vec![1 | 1 << bit];
                },
            );
        }
    }

    pub(super) fn banks(&mut self) {
        for k in 1..=8 {
            let right = right_banks(k);
            let shown =
                |bank: usize, nibble: u32| right & !(0xF << (4 * bank)) | nibble << (4 * bank);
            let any = self.rng.below(k);
            let mut wrongs = vec![
                ("first-missing", shown(0, 0)),
                ("last-missing", shown(k - 1, 0)),
                ("nibble-3", shown(any, 3)),
                ("nibble-9", shown(any, 9)),
                ("nibble-2", shown(k - 1, 2)),
                ("none", 0),
                ("all-ones", 0xFFFF_FFFF),
            ];
            if k < 8 {
                wrongs.push(("one-more", shown(k, 1)));
                wrongs.push(("last-too", shown(7, 1)));
                wrongs.push(("other-2", shown(k, 2)));
                wrongs.push(("other-8", shown(7, 8)));
            }
            for (label, banks) in wrongs {
                let kind = self.rng.kind();
                self.put_device(&format!("want30-k{k}-{label}"), kind, k, |session| {
                    session.device.banks = banks;
                });
            }
        }
        self.banks_by_identifier();
    }

    /// Identifiers 2 and 3 report in banks 0 and 1, not 2 and 3.
    fn banks_by_identifier(&mut self) {
        for (want, banks) in [("want0", 0x0011), ("want30", 0x1100)] {
            let mut session = self.session(Kind::Production, 2);
            session.draft.set_identifier(&mut self.rng, 0, 2);
            session.draft.set_identifier(&mut self.rng, 1, 3);
            session.device.banks = banks;
            self.put(&format!("{want}-banks-by-identifier"), &session);
        }
    }

    /// A wrong CRC at each N of each k.
    pub(super) fn mismatches(&mut self) {
        for k in 1..=8 {
            for config in 0..k {
                let kind = self.rng.kind();
                let mut session = self.session(kind, k);
                let right = session.device.crcs[config];
                let wrong = match self.rng.below(4) {
                    0 => right.swap_bytes(),
                    1 => right ^ 1 << self.rng.below(32),
                    2 => session.device.crcs[(config + 1) % k],
                    _ => !right,
                };
                session.device.crcs[config] = if wrong == right { !right } else { wrong };
                self.put(&format!("want31n{config}-k{k}"), &session);
            }
        }
        // The first mismatch is given, with its own N.
        let mut session = self.session(Kind::Legacy, 3);
        session.device.crcs[1] ^= 1;
        session.device.crcs[2] ^= 1;
        self.put("want31n1-two-of-three", &session);
    }
}
