//! Refused begins.

use super::{Sessions, RESERVED};
use crate::device::{input, Settings};
use crate::draft::{identity_of, Draft};
use crate::ending::{at, At, WHOLE};
use crate::line::{burn, header, write, ADDRESS};
use crate::numbers::{BURNS, CHAR, COUNT, CRC, DEVICE, FORM, LENGTH, PAIRS};
use crate::numbers::{REVISION, SAME, SIZE, SPOT};
use crate::spoil::{broken_from, spoiled, Field, FIELDS};
use crate::text::{capital, with_line};

pub(crate) const OF_THE_FILE: [u8; 7] = [SIZE, COUNT, REVISION, DEVICE, BURNS, SPOT, SAME];

/// Settings that are not allowed: poll limits, house rules (document 02, R-13) and addresses.
pub(crate) const BAD_LIMITS: [u16; 6] = [0, 10_001, 10_002, 20_000, 0x8000, 65_535];
const BAD_RULES: [u8; 5] = [0, 3, 4, 128, 255];
const BAD_ADDRESSES: [u8; 9] = [0x00, 0x0E, 0x0F, 0x11, 0xC1, 0xEF, 0xF0, 0xFE, 0xFF];

impl Sessions {
    /// Each setting that is not allowed by itself, and together with another.
    pub(super) fn refused_settings(&mut self) {
        for limit in BAD_LIMITS {
            self.put_refused_settings(|settings| settings.poll_limit = limit);
        }
        for code in RESERVED {
            self.put_refused_settings(|settings| settings.restore_cfg = code);
        }
        for (limit, code) in [(0, 0xC5), (65_535, 0xAE)] {
            self.put_refused_settings(|settings| {
                settings.poll_limit = limit;
                settings.restore_cfg = code;
            });
        }
        for rule in BAD_RULES {
            self.put_refused_settings(|settings| settings.rule = rule);
            let limit = self.rng.pick(&BAD_LIMITS);
            self.put_refused_settings(|settings| {
                settings.poll_limit = limit;
                settings.rule = rule;
            });
            let code = self.rng.pick(&RESERVED);
            self.put_refused_settings(|settings| {
                settings.restore_cfg = code;
                settings.rule = rule;
            });
        }
    }

    /// Each address that is not allowed by itself, and together with another setting.
    pub(super) fn refused_addresses(&mut self) {
        for address in BAD_ADDRESSES {
            self.put_refused_settings(|settings| settings.address = address);
            let (limit, code) = (self.rng.pick(&BAD_LIMITS), self.rng.pick(&RESERVED));
            let (rule, other) = (self.rng.pick(&BAD_RULES), self.rng.below(3));
            self.put_refused_settings(|settings| {
                settings.address = address;
                match other {
                    0 => settings.poll_limit = limit,
                    1 => settings.restore_cfg = code,
                    _ => settings.rule = rule,
                }
            });
        }
    }

    /// Settings of a session spoiled by a change, with its own file and with a refused one.
    fn put_refused_settings(&mut self, spoil: impl FnOnce(&mut Settings)) {
        let mut session = self.small_session();
        spoil(&mut session.settings);
        let Settings {
            poll_limit,
            restore_cfg,
            rule,
            address,
            ..
        } = session.settings;
        let mut label = format!("want14-limit{poll_limit}-restore{restore_cfg:02x}-rule{rule}");
        if address != ADDRESS {
            label += &format!("-address{address:02x}");
        }
        self.put(&label, &session);

        let (number, file) = self.any_refused_file();
        let bytes = input(session.settings, &file, &session.replies());
        self.put_bytes(&format!("{label}-and-file-{number}"), &bytes);
    }

    pub(crate) fn any_refused_file(&mut self) -> (u8, Vec<u8>) {
        if self.rng.once_in(2) {
            let number = self.rng.pick(&OF_THE_FILE);
            (number, self.refused_file(number))
        } else {
            let number = self.rng.pick(&[CHAR, PAIRS, LENGTH, CRC, FORM]);
            (number, self.file_with_fault(number).1)
        }
    }

    pub(super) fn refused_files(&mut self) {
        for number in OF_THE_FILE {
            for turn in 0..3 {
                let file = self.refused_file(number);
                self.put_refused(number, WHOLE, &file, turn > 0);
            }
        }
        for turn in 0..10 {
            for number in [CHAR, PAIRS, LENGTH, CRC] {
                let (at, file) = self.file_with_fault(number);
                self.put_refused(number, at, &file, turn % 3 > 0);
            }
            for field in FIELDS {
                let (at, file) = self.file_with_broken(field);
                self.put_refused(FORM, at, &file, turn % 3 > 0);
            }
        }
        self.put_refused(COUNT, WHOLE, b"", false);
        self.put_refused(PAIRS, at(1, 65_537), &[b'0'; 65_536], false);
    }

    /// A session that the file does not let begin, without replies or with those of another.
    fn put_refused(&mut self, number: u8, at: At, file: &[u8], with_replies: bool) {
        let session = self.small_session();
        let replies = if with_replies {
            session.replies()
        } else {
            Vec::new()
        };
        let bytes = input(session.settings, file, &replies);
        self.put_bytes(&format!("want{number}{at}-file"), &bytes);
    }

    /// A file refused with this number, which no line has.
    pub(crate) fn refused_file(&mut self, number: u8) -> Vec<u8> {
        let kind = self.rng.kind();
        let mut draft = Draft::random(&mut self.rng, kind, 2);
        let at = draft.free_line(&mut self.rng);
        match number {
            SIZE => return vec![b'0'; self.rng.from_to(65_537, 65_600)],
            COUNT => {
                draft.lines.remove(at - 1);
            }
            REVISION => draft.set(2, header(0xAE, &[0x02, 0, 0, 0])),
            DEVICE => draft.set(1, header(0xAD, &identity_of(0x85))),
            BURNS => draft.set(at, burn()),
            SPOT => draft.set(draft.crc_line(1), write(0xC5, &[1, 2, 3, 4])),
            _ => draft.set(draft.id_line(1), draft.get(draft.id_line(0)).to_vec()),
        }
        self.file(&draft)
    }

    /// A file with a line refused with this number, and where.
    pub(crate) fn file_with_fault(&mut self, fault: u8) -> (At, Vec<u8>) {
        let (draft, number) = self.draft_and_line();
        let (place, digits) = spoiled(&mut self.rng, number, draft.get(number), &[fault]);
        let file = with_line(&mut self.rng, &draft, number, &digits);
        (at(number, place), file)
    }

    /// A file with a line whose first broken field is this one, and where.
    pub(crate) fn file_with_broken(&mut self, field: Field) -> (At, Vec<u8>) {
        let (draft, number) = self.draft_and_line();
        let wrong = broken_from(&mut self.rng, number, draft.get(number), field);
        let file = with_line(&mut self.rng, &draft, number, &capital(&wrong));
        (at(number, field.place()), file)
    }

    /// A draft and the number of a line of it, of the header as often as behind it.
    pub(super) fn draft_and_line(&mut self) -> (Draft, usize) {
        let kind = self.rng.kind();
        let draft = Draft::random(&mut self.rng, kind, 2);
        let number = if self.rng.once_in(2) {
            self.rng.from_to(1, 4)
        } else {
            self.rng.from_to(5, draft.n())
        };
        (draft, number)
    }
}
