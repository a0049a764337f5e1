//! Random sessions.

use super::{Session, Sessions};
use crate::address::random_address;
use crate::device::{replies_of, right_banks, Step, PRODUCTION_FLAG};
use crate::draft::{identity_of, PARTS};
use crate::line::ADDRESS;

impl Sessions {
    pub(super) fn random_sessions(&mut self) {
        for _ in 0..140 {
            self.put_random("open-random", ADDRESS);
        }
    }

    /// At random addresses (document 02, R-2).
    pub(super) fn random_sessions_anywhere(&mut self) {
        for _ in 0..100 {
            let address = random_address(&mut self.rng);
            self.put_random(&format!("open-random-at-{address:02x}"), address);
        }
    }

    fn put_random(&mut self, label: &str, address: u8) {
        let k = self.rng.pick(&[1, 1, 1, 1, 1, 2, 2, 3]);
        let kind = self.rng.kind();
        let mut session = self.session(kind, k).at(address);
        if self.rng.once_in(2) {
            self.perturb(&mut session);
        }
        self.random_polls(&mut session);
        let mut steps = session.steps();
        if self.rng.once_in(2) {
            let place = self.any_place(&steps);
            let faults = self.faulty_replies(address, &steps[place]);
            steps[place].reply = self.rng.pick(&faults).2;
        }
        let mut replies = replies_of(&steps);
        if self.rng.once_in(4) {
            replies.truncate(self.rng.below(replies.len() + 1));
        }
        self.put_replies(label, &session, &replies);
    }

    /// Any step, the write lines being not much likelier than the others.
    pub(crate) fn any_place(&mut self, steps: &[Step]) -> usize {
        loop {
            let place = self.rng.below(steps.len());
            if !steps[place].name.starts_with("line-") || self.rng.once_in(20) {
                return place;
            }
        }
    }

    pub(crate) fn random_polls(&mut self, session: &mut Session) {
        let most = usize::from(session.settings.poll_limit.min(9)) - 1;
        let clear = self.rng.from_to(0, most);
        let device = &mut session.device;
        device.statuses = (0..clear).map(|_| self.rng.word() & !1).collect();
        let others = if self.rng.once_in(6) {
            self.rng.word()
        } else {
            0
        };
        device.statuses.push(others | 1);
    }

    pub(crate) fn perturb(&mut self, session: &mut Session) {
        let device = &mut session.device;
        let bit = 1u32 << self.rng.below(32);
        match self.rng.below(8) {
            0 => device.counter = self.rng.pick(&[0, 1, 2, 3, 4, 5, 26, 27, 28, 29, 30, 256]),
            1 => device.identity ^= bit,
            2 => device.identity = u32::from_be_bytes(identity_of(self.rng.pick(&PARTS))),
            3 => device.flag = self.rng.pick(&[0, 1, PRODUCTION_FLAG, 0xFFFE_0000]),
            4 => device.revision = self.rng.word() & 0x0FFF_FFFF,
            5 => device.banks = right_banks(self.rng.from_to(0, 8)),
            6 => device.banks ^= bit,
            _ => {
                let config = self.rng.below(device.crcs.len());
                device.crcs[config] ^= bit;
            }
        }
    }
}
