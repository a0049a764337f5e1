//! Inputs of dry runs that are cut short or too long, or just not.

use super::Sessions;
use crate::device::{input, reply_bytes, Reply, Settings};
use crate::device::{ADDRESS_PLACE, HEADER_BYTES, SETTINGS_BYTES};
use crate::draft::Draft;
use crate::line::ADDRESS;

pub(crate) const ROOM_FOR_FILE: usize = 65_600;
pub(crate) const ROOM_FOR_REPLIES: usize = 200_000;
const FINE: Settings = Settings {
    step_1: 1,
    poll_limit: 10,
    restore_cfg: 0xF2,
    rule: 1,
    address: ADDRESS,
};
const BAD_LIMIT: Settings = Settings {
    poll_limit: 0,
    ..FINE
};
const BAD_RULE: Settings = Settings { rule: 3, ..FINE };
const ELSEWHERE: Settings = Settings {
    address: 0x20,
    ..FINE
};
const BAD_ADDRESS: Settings = Settings {
    address: 0xC1,
    ..FINE
};

impl Sessions {
    pub(super) fn input_cases(&mut self) {
        self.cut_headers_and_files();
        self.cut_replies();
        self.long_files();
        self.long_replies();
    }

    fn fresh_input(&mut self) -> (Draft, Vec<u8>) {
        let session = self.small_session();
        let file = self.file(&session.draft);
        let bytes = input(session.settings, &file, &session.replies());
        (session.draft, bytes)
    }

    fn cut_headers_and_files(&mut self) {
        // `inputs_elsewhere` cuts right before the address.
        for count in (0..HEADER_BYTES).filter(|&count| count != ADDRESS_PLACE) {
            let (_, mut bytes) = self.fresh_input();
            bytes.truncate(count);
            self.put_bytes(&format!("cutshort-header-{count}"), &bytes);
        }
        for settings in [FINE, BAD_LIMIT, BAD_RULE] {
            let (draft, _) = self.fresh_input();
            let file = self.file(&draft);
            let whole = input(settings, &file, &[]);
            let inside = self.rng.from_to(HEADER_BYTES + 1, whole.len() - 2);
            for count in [HEADER_BYTES, HEADER_BYTES + 1, inside, whole.len() - 1] {
                self.put_bytes(&format!("cutshort-file-{count}"), &whole[..count]);
            }
        }
    }

    fn cut_replies(&mut self) {
        let tails: [(&str, &[u8]); 5] = [
            ("kind-only", &[1]),
            ("no-bytes", &[1, 5]),
            ("one-byte-less", &[1, 5, 1, 2, 3, 4]),
            ("of-255", &[0, 255, 1]),
            ("of-one", &[9, 1]),
        ];
        for (label, tail) in tails {
            let (_, done) = self.fresh_input();
            self.put_bytes(
                &format!("cutshort-after-done-{label}"),
                &[&done[..], tail].concat(),
            );
            let (draft, _) = self.fresh_input();
            let file = self.file(&draft);
            for settings in [FINE, BAD_LIMIT, BAD_RULE] {
                let first = input(settings, &file, &[]);
                self.put_bytes(
                    &format!("cutshort-first-{label}"),
                    &[&first[..], tail].concat(),
                );
            }
        }
    }

    fn long_files(&mut self) {
        for (number, settings) in [(1, FINE), (14, BAD_LIMIT), (14, BAD_RULE)] {
            let room = ROOM_FOR_FILE as u32;
            for length in [room + 1, 70_000, 0x0100_0000, 0xFFFF_FFFF] {
                let label = format!("toolong-file-{length}-missing");
                self.put_bytes(&label, &header(settings, length));
            }
            self.put_bytes("cutshort-file-65600-missing", &header(settings, room));
            let full = input(settings, &vec![b'\n'; ROOM_FOR_FILE], &[]);
            self.put_bytes(&format!("want{number}-file-65600"), &full);
            let over = input(settings, &vec![b'\n'; ROOM_FOR_FILE + 1], &[]);
            self.put_bytes("toolong-file-65601", &over);
        }
        let over = input(FINE, &vec![b'0'; ROOM_FOR_FILE + 1], &[]);
        let over_and_cut = [&over[..], &[1]].concat();
        self.put_bytes("toolong-file-and-cut-reply", &over_and_cut);
    }

    fn long_replies(&mut self) {
        for (want, size) in [
            ("want0", ROOM_FOR_REPLIES),
            ("toolong", ROOM_FOR_REPLIES + 1),
        ] {
            let session = self.small_session();
            let mut replies = session.replies();
            replies.extend(replies_of_size(size - reply_bytes(&replies).len()));
            assert_eq!(reply_bytes(&replies).len(), size);
            let file = self.file(&session.draft);
            let bytes = input(session.settings, &file, &replies);
            self.put_bytes(&format!("{want}-replies-{size}"), &bytes);
            let cut = [&bytes[..], &[1, 9]].concat();
            self.put_bytes(&format!("toolong-replies-{}-cut", size + 2), &cut);
        }
        let session = self.small_session();
        let file = self.file(&session.draft);
        for settings in [session.settings, BAD_LIMIT, BAD_RULE] {
            let mut bytes = input(settings, &file, &[]);
            bytes.extend([1, 0].repeat(ROOM_FOR_REPLIES / 2 - 1));
            bytes.extend([1, 1]);
            self.put_bytes("cutshort-replies-200000", &bytes);
            bytes.extend([1]);
            self.put_bytes("toolong-replies-200001", &bytes);
        }
    }

    /// With another address than C0, and with one that is not allowed: the input is taken apart
    /// before the address is looked at.
    pub(super) fn inputs_elsewhere(&mut self) {
        for settings in [ELSEWHERE, BAD_ADDRESS] {
            let (draft, _) = self.fresh_input();
            let file = self.file(&draft);
            let whole = input(settings, &file, &[]);
            let at = format!("at-{:02x}", settings.address);
            for count in 0..HEADER_BYTES {
                self.put_bytes(&format!("cutshort-header-{count}-{at}"), &whole[..count]);
            }
            for count in [HEADER_BYTES, whole.len() - 1] {
                self.put_bytes(&format!("cutshort-file-{count}-{at}"), &whole[..count]);
            }
            let cut_reply = [&whole[..], &[1, 5, 0]].concat();
            self.put_bytes(&format!("cutshort-reply-{at}"), &cut_reply);
            let over = header(settings, ROOM_FOR_FILE as u32 + 1);
            self.put_bytes(&format!("toolong-file-{at}"), &over);
        }
    }
}

/// The settings and a file's length, without a file.
fn header(settings: Settings, length: u32) -> Vec<u8> {
    let mut bytes = input(settings, b"", &[]);
    bytes[SETTINGS_BYTES..].copy_from_slice(&length.to_le_bytes());
    bytes
}

/// Replies that take so many bytes in a dry run's input, which are at least two.
pub(crate) fn replies_of_size(mut size: usize) -> Vec<Reply> {
    let most = 2 + 255;
    let mut replies = Vec::new();
    while size > 0 {
        let take = if size <= most {
            size
        } else {
            most.min(size - 2)
        };
        replies.push(Reply {
            kind: 0,
            bytes: vec![7; take - 2],
        });
        size -= take;
    }
    replies
}
