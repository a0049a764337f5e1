//! Sessions that end DONE.

use super::{Sessions, LIMITS};
use crate::draft::BOTH;

impl Sessions {
    pub(super) fn done(&mut self) {
        for kind in BOTH {
            for step_1 in [0, 1] {
                for poll_limit in LIMITS {
                    let mut session = self.session(kind, 1);
                    session.settings.step_1 = step_1;
                    session.settings.poll_limit = poll_limit;
                    let label = format!("want0-{}-step{step_1}-limit{poll_limit}", kind.name());
                    self.put(&label, &session);
                }
            }
            for k in 1..=8 {
                let session = self.session(kind, k);
                self.put(&format!("want0-{}-k{k}", kind.name()), &session);
            }
        }
        self.done_setups();
        self.done_codes_and_identifiers();
    }

    /// Step 1 with each bit of interest in what it reads.
    fn done_setups(&mut self) {
        let setups = [
            0,
            0x20,
            0xDF,
            0xFF,
            0x2000,
            0x2000_0000,
            0x0400_0000,
            0xFFFF_FFFF,
        ];
        for setup in setups {
            for step_1 in [1, 0xFF] {
                let mut session = self.small_session();
                session.settings.step_1 = step_1;
                session.device.setup = setup;
                self.put(&format!("want0-setup-{setup:08x}"), &session);
            }
        }
    }

    fn done_codes_and_identifiers(&mut self) {
        for code in [
            0x00, 0x01, 0xC0, 0xC1, 0xC4, 0xC8, 0xE6, 0xE8, 0xAC, 0xAF, 0xF2, 0xFF,
        ] {
            let mut session = self.small_session();
            session.settings.restore_cfg = code;
            self.put(&format!("want0-restore-{code:02x}"), &session);
        }
        for identifier in 0..16 {
            let mut session = self.small_session();
            session.draft.set_identifier(&mut self.rng, 0, identifier);
            self.put(&format!("want0-identifier-{identifier:x}"), &session);
        }
    }
}
