//! Identities and revisions that are accepted, and others: DEVICE and REVISION.

use super::Files;
use crate::draft::{identity_of, BOTH, PARTS};
use crate::line::header;
use crate::numbers::{COUNT, DEVICE, REVISION};

impl Files {
    pub(super) fn identities(&mut self) {
        for middle in 0..=255u8 {
            let mut draft = self.small_draft();
            draft.set(1, header(0xAD, &identity_of(middle)));
            let number = if PARTS.contains(&middle) { 0 } else { DEVICE };
            self.put_whole(number, &format!("identity-{middle:02x}"), &draft);
        }
        let mut others = vec![[0x00, 0x81, 0xD2, 0x49], [0xD2, 0x49, 0x81, 0x00], [0; 4]];
        for (place, wrongs) in [
            (0, [0x48, 0x4A, 0xC9]),
            (1, [0xD3, 0xD0, 0x52]),
            (3, [1, 0x80, 0xFF]),
        ] {
            for wrong in wrongs {
                for _ in 0..2 {
                    let mut identity = identity_of(self.rng.pick(&PARTS));
                    identity[place] = wrong;
                    others.push(identity);
                }
            }
        }
        for identity in others {
            let mut draft = self.small_draft();
            draft.set(1, header(0xAD, &identity));
            let name: String = identity.iter().map(|byte| format!("{byte:02x}")).collect();
            self.put_whole(DEVICE, &format!("identity-{name}"), &draft);
        }
    }

    /// Each first byte; the other bytes are random, and among them 00, 01, 06 and 07.
    pub(super) fn revisions(&mut self) {
        for first in 0..=255u8 {
            let kinds = if first < 8 {
                BOTH.to_vec()
            } else {
                vec![self.rng.kind()]
            };
            for kind in kinds {
                let mut draft = self.draft(kind, 1);
                let mut revision = self.rng.bytes(4);
                revision[0] = first;
                revision[3] = self.rng.pick(&[0, 1, 6, 7]);
                draft.set(2, header(0xAE, &revision));
                let number = match first {
                    0 | 1 | 6 | 7 if kind.first_bytes().contains(&first) => 0,
                    0 | 1 | 6 | 7 => COUNT,
                    _ => REVISION,
                };
                self.put_whole(
                    number,
                    &format!("revision-{first:02x}-{}", kind.name()),
                    &draft,
                );
            }
        }
    }
}
