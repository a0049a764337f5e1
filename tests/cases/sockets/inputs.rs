//! Inputs that are cut short or too long in one of their parts, or just not.

use super::{Socket, FIRST};
use crate::device::{behind_its_length, input, reply_bytes};
use crate::device::{HEADER_BYTES, LENGTH_BYTES, SETTINGS_BYTES};
use crate::numbers::SIZE;
use crate::sessions::inputs::{replies_of_size, ROOM_FOR_FILE, ROOM_FOR_REPLIES};
use crate::sessions::Sessions;

/// Lengths that are over the room.
const LENGTHS: [u32; 4] = [ROOM_FOR_FILE as u32 + 1, 70_000, 0x0100_0000, u32::MAX];

impl Sessions {
    pub(super) fn socket_inputs(&mut self) {
        self.cut_sockets();
        self.long_mornings();
        self.long_lent_texts();
        self.long_replies_at_the_socket();
        self.several_at_once();
    }

    /// The two parts of an input: the morning's file, and the dry run.
    fn parts(&mut self) -> (Vec<u8>, Vec<u8>) {
        let Socket {
            session,
            morning,
            lent,
        } = self.small_socket();
        let dry_run = input(session.settings, &lent.concat(), &session.replies());
        (behind_its_length(&morning), dry_run)
    }

    /// Cut in every part, at each byte of the two lengths and the settings.
    fn cut_sockets(&mut self) {
        let (morning, dry_run) = self.parts();
        let whole = [&morning[..], &dry_run].concat();
        let header = morning.len() + HEADER_BYTES;
        let inside = self.rng.from_to(LENGTH_BYTES + 1, morning.len() - 2);
        let in_the_lent = header + self.rng.from_to(1, morning.len() - LENGTH_BYTES - 1);
        let mut counts: Vec<usize> = (0..=LENGTH_BYTES).collect();
        counts.extend([inside, morning.len() - 1]);
        counts.extend(morning.len()..=header);
        counts.extend([in_the_lent, whole.len() - 1]);
        for count in counts {
            self.put_bytes(&format!("cutshort-at-{count}"), &whole[..count]);
        }
        for tail in [
            &[1][..],
            &[1, 5],
            &[1, 5, 1, 2, 3, 4],
            &[0, 255, 1],
            &[9, 1],
        ] {
            let (morning, dry_run) = self.parts();
            let cut = [&morning[..], &dry_run, tail].concat();
            self.put_bytes("cutshort-last-reply", &cut);
        }
    }

    /// The length is looked at before the bytes, and the room is over the size that a file may have.
    fn long_mornings(&mut self) {
        for length in LENGTHS {
            self.put_bytes("toolong-morning-missing", &length.to_le_bytes());
        }
        let room = (ROOM_FOR_FILE as u32).to_le_bytes();
        self.put_bytes("cutshort-morning-65600-missing", &room);
        let mut socket = self.small_socket();
        socket.morning = vec![b'\n'; ROOM_FOR_FILE];
        self.put_socket(&format!("want15-checked{SIZE}-morning-65600"), &socket);
        socket.morning.push(b'\n');
        self.put_socket("toolong-morning-65601", &socket);
    }

    fn long_lent_texts(&mut self) {
        for length in LENGTHS {
            let (mut bytes, dry_run) = self.parts();
            bytes.extend_from_slice(&dry_run[..SETTINGS_BYTES]);
            bytes.extend(length.to_le_bytes());
            self.put_bytes("toolong-lent-missing", &bytes);
        }
        let mut socket = self.small_socket();
        socket.lent = vec![vec![b'\n'; ROOM_FOR_FILE]];
        self.put_stuck("lent-65600-line-feeds", &socket, FIRST);
        socket.lent[0].push(b'\n');
        self.put_socket("toolong-lent-65601", &socket);
    }

    fn long_replies_at_the_socket(&mut self) {
        for (want, size) in [
            ("want0", ROOM_FOR_REPLIES),
            ("toolong", ROOM_FOR_REPLIES + 1),
        ] {
            let socket = self.small_socket();
            let mut replies = socket.session.replies();
            replies.extend(replies_of_size(size - reply_bytes(&replies).len()));
            self.put_socket_replies(&format!("{want}-replies-{size}"), &socket, &replies);
        }
    }

    /// The first that is met counts, and all of the input is looked at before the check and the begin.
    fn several_at_once(&mut self) {
        let over = LENGTHS[0].to_le_bytes();
        let (morning, dry_run) = self.parts();
        let header = &dry_run[..SETTINGS_BYTES];
        let long_and_cut = [&over[..], &dry_run].concat();
        self.put_bytes("toolong-morning-and-cut", &long_and_cut);
        let refused = [&behind_its_length(b"")[..], header, &over].concat();
        self.put_bytes("toolong-lent-behind-a-refused-morning", &refused);
        let refused = [&behind_its_length(b"")[..], &dry_run, &[1]].concat();
        self.put_bytes("cutshort-reply-behind-a-refused-morning", &refused);
        let mut bad = dry_run.clone();
        bad[1..3].copy_from_slice(&[0, 0]);
        let refused = [&morning[..], &bad, &[1]].concat();
        self.put_bytes("cutshort-reply-with-a-bad-setting", &refused);
    }
}
