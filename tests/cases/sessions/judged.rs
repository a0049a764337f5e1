//! Verdicts 23 to 28: what the device says of itself.

use super::{Session, Sessions};
use crate::device::{flag_of, least_counter, PRODUCTION_FLAG, RULES};
use crate::draft::{identity_of, Kind, BOTH, PARTS};
use crate::list::names;

const COUNTER: u8 = 23;
const IDENTITY: u8 = 24;
const FLAG: u8 = 25;
const OLD: u8 = 26;
const KIND: u8 = 27;
const PLACES: u8 = 28;

impl Sessions {
    /// The cases of "Run and compared". The page knows no house rule: what it says is rule 1.
    pub(super) fn page_examples(&mut self) {
        let legacy = Kind::Legacy;
        let production = Kind::Production;
        let cases = [
            (0, legacy, 27, 0),
            (0, production, 28, 0),
            (KIND, production, 27, 0),
            (KIND, legacy, 28, 0),
            (FLAG, legacy, 27, 1),
            (FLAG, production, 27, 1),
            (COUNTER, legacy, 29, 0),
            (COUNTER, production, 29, PRODUCTION_FLAG),
            (PLACES, legacy, 0, 0),
            (PLACES, production, 0, PRODUCTION_FLAG),
        ];
        for (verdict, kind, counter, flag) in cases {
            let label = format!("want{verdict}-page-{}-{counter}-{flag:x}", kind.name());
            let session = self.session_under(1, kind, 1).counting(counter, flag);
            self.put(&label, &session);
        }
        for (verdict, status) in [(0, 0x41), (29, 0x09)] {
            let label = format!("want{verdict}-page-status-{status:02x}");
            let kind = self.rng.kind();
            let mut session = self.session_under(1, kind, 1);
            session.device.statuses = vec![status];
            self.put(&label, &session);
        }
        for (verdict, banks) in [(0, 0x11), (30, 0x111), (30, 0x10)] {
            let label = format!("want{verdict}-page-banks-{banks:08x}");
            let kind = self.rng.kind();
            let mut session = self.session_under(1, kind, 2);
            session.device.banks = banks;
            self.put(&label, &session);
        }
    }

    pub(super) fn counters_and_flags(&mut self) {
        let counters = [
            0,
            1,
            27,
            28,
            29,
            255,
            256,
            0x11B,
            0x11C,
            0x1C00_0000,
            0xFFFF_FFFF,
        ];
        let flags = [0, 1, PRODUCTION_FLAG, 0xFFFE_0000, 0x0100_FEFF];
        for kind in BOTH {
            for counter in counters {
                for flag in flags {
                    let label = format!("open-{}-{counter:x}-{flag:08x}", kind.name());
                    let session = self.session(kind, 1).counting(counter, flag);
                    self.put(&label, &session);
                }
            }
        }
    }

    pub(super) fn identities(&mut self) {
        for bit in 0..32 {
            let kind = self.rng.kind();
            let label = format!("want{IDENTITY}-bit-{bit}");
            self.put_device(&label, kind, 1, |session| {
                session.device.identity ^= 1 << bit
            });
        }
        for _ in 0..4 {
            let kind = self.rng.kind();
            self.put_device(&format!("want{IDENTITY}-reversed"), kind, 1, |session| {
                session.device.identity = session.device.identity.swap_bytes();
            });
            let part = self.rng.pick(&PARTS);
            self.put_device("open-another-part", kind, 1, |session| {
                session.device.identity = u32::from_be_bytes(identity_of(part));
            });
        }
    }

    pub(super) fn revisions(&mut self) {
        for high in [0, 1, 2, 3, 4, 5, 6, 7, 8, 0x10, 0x7F, 0x80, 0xFF] {
            for low in [0x0000_0000, 0x0006_0606] {
                let kind = self.rng.kind();
                let verdict = if high < 6 { OLD } else { 0 };
                let label = format!("want{verdict}-revision-{high:02x}-{low:06x}");
                self.put_device(&label, kind, 1, |session| {
                    session.device.revision = high << 24 | low;
                });
            }
        }
    }

    /// Under each house rule, for each k: the counter just under the least that does, just at it,
    /// and above it.
    pub(super) fn places(&mut self) {
        for rule in RULES {
            for kind in BOTH {
                for k in 1..=8 {
                    let least = least_counter(rule, k);
                    for (verdict, counter) in [(PLACES, least - 1), (0, least), (0, least + 1)] {
                        self.put_places(verdict, rule, kind, k, counter);
                    }
                }
            }
        }
    }

    fn put_places(&mut self, verdict: u8, rule: u8, kind: Kind, k: usize, counter: u32) {
        let name = kind.name();
        let label = format!("want{verdict}-places-rule{rule}-{name}-k{k}-counter{counter}");
        let session = self.session_under(rule, kind, k);
        self.put(&label, &session.counting(counter, flag_of(kind)));
    }

    /// Rule 2 changes PLACES alone (document 02, R-13): 23 and the kind wanted go by the counter as
    /// it was read, and nothing is taken off it or added to it.
    pub(super) fn kept_places(&mut self) {
        let legacy = Kind::Legacy;
        let production = Kind::Production;
        let cases = [
            (0, production, 1, 28, 0),
            (0, production, 8, 28, 0),
            (0, production, 8, 10, PRODUCTION_FLAG),
            (0, legacy, 8, 10, 0),
            (0, legacy, 1, 26, 0),
            (0, legacy, 8, 27, 0),
            (COUNTER, legacy, 1, 29, 0),
            (COUNTER, legacy, 1, 30, 0),
            (COUNTER, production, 1, 29, PRODUCTION_FLAG),
            (COUNTER, production, 1, 30, PRODUCTION_FLAG),
            (COUNTER, production, 1, 30, 0),
            (FLAG, production, 1, 26, 1),
            (FLAG, legacy, 1, 26, 1),
            (KIND, legacy, 1, 28, 0),
            (KIND, legacy, 8, 28, 0),
            (KIND, production, 1, 26, 0),
            (KIND, production, 1, 27, 0),
            // Too few places besides.
            (FLAG, production, 1, 2, 1),
            (FLAG, legacy, 8, 9, 1),
            (KIND, production, 1, 2, 0),
            (KIND, production, 8, 9, 0),
            (KIND, legacy, 1, 2, PRODUCTION_FLAG),
            (KIND, legacy, 8, 9, PRODUCTION_FLAG),
            (PLACES, production, 8, 9, PRODUCTION_FLAG),
            (PLACES, legacy, 8, 9, 0),
            // Fewer places than are kept.
            (PLACES, production, 1, 0, PRODUCTION_FLAG),
            (PLACES, production, 1, 1, PRODUCTION_FLAG),
            (PLACES, legacy, 1, 0, 0),
            (PLACES, legacy, 1, 1, 0),
        ];
        for (verdict, kind, k, counter, flag) in cases {
            let name = kind.name();
            let label = format!("want{verdict}-kept-rule2-{name}-k{k}-counter{counter}-{flag:x}");
            let session = self.session_under(2, kind, k).counting(counter, flag);
            self.put(&label, &session);
        }
    }

    /// Every set of faults among 23 to 28 that can come together, under each house rule: the
    /// smallest is given.
    pub(super) fn faults_together(&mut self) {
        for kind in BOTH {
            for set in 1..64u8 {
                let faults: Vec<u8> = (23..=28)
                    .filter(|fault| set >> (fault - 23) & 1 == 1)
                    .collect();
                let has = |fault: u8| faults.contains(&fault);
                if has(FLAG) && has(KIND) || has(COUNTER) && has(PLACES) {
                    continue;
                }
                for rule in RULES {
                    self.put_together(rule, kind, &faults);
                }
            }
        }
    }

    fn put_together(&mut self, rule: u8, kind: Kind, faults: &[u8]) {
        let names = names(faults);
        let label = format!("want{}-together-rule{rule}-{names}", faults[0]);
        let mut session = self.session_under(rule, kind, 1);
        spoil_device(&mut session, faults);
        self.put(&label, &session);
    }
}

pub(super) fn spoil_device(session: &mut Session, faults: &[u8]) {
    let has = |fault: u8| faults.contains(&fault);
    let production = session.draft.kind == Kind::Production;
    let least = least_counter(session.settings.rule, session.draft.k);
    let device = &mut session.device;
    device.counter = if has(COUNTER) {
        29
    } else if has(PLACES) {
        least - 1
    } else {
        27
    };
    // With KIND, the flag asks for the other kind.
    device.flag = if has(FLAG) {
        1
    } else if production != has(KIND) {
        PRODUCTION_FLAG
    } else {
        0
    };
    if has(IDENTITY) {
        device.identity ^= 0x0000_0100;
    }
    if has(OLD) {
        device.revision &= 0x01FF_FFFF;
    }
}
