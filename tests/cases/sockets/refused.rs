//! A morning's file that is refused, whose summary is of zeros, and settings that are not allowed.

use super::Socket;
use crate::ending::{At, WHOLE};
use crate::numbers::{CHAR, COUNT, CRC, FORM, LENGTH, PAIRS};
use crate::sessions::refused::{BAD_LIMITS, OF_THE_FILE};
use crate::sessions::Sessions;
use crate::spoil::FIELDS;

impl Sessions {
    pub(super) fn refused_mornings(&mut self) {
        for _ in 0..2 {
            for number in OF_THE_FILE {
                let file = self.refused_file(number);
                self.put_morning(number, WHOLE, &file);
            }
            for number in [CHAR, PAIRS, LENGTH, CRC] {
                let (at, file) = self.file_with_fault(number);
                self.put_morning(number, at, &file);
            }
            for field in FIELDS {
                let (at, file) = self.file_with_broken(field);
                self.put_morning(FORM, at, &file);
            }
        }
        self.put_morning(COUNT, WHOLE, b"");
        self.refused_settings_at_the_socket();
    }

    /// A good text is lent, or the one that was refused. With a setting that is not allowed, that is
    /// what counts.
    fn put_morning(&mut self, number: u8, at: At, file: &[u8]) {
        let mut socket = self.small_socket();
        socket.morning = file.to_vec();
        if self.rng.once_in(4) {
            socket.lent = vec![file.to_vec()];
        }
        self.put_socket_any_replies(&format!("want15-checked{number}{at}"), &socket);
        self.spoil_settings(&mut socket);
        self.put_socket_any_replies(&format!("want14-checked{number}{at}"), &socket);
    }

    /// An ended state stays as it is, whatever replies come.
    fn put_socket_any_replies(&mut self, label: &str, socket: &Socket) {
        let mut replies = socket.session.replies();
        if self.rng.once_in(3) {
            replies.clear();
        }
        self.put_socket_replies(label, socket, &replies);
    }

    fn spoil_settings(&mut self, socket: &mut Socket) {
        let settings = &mut socket.session.settings;
        match self.rng.below(4) {
            0 => settings.poll_limit = self.rng.pick(&BAD_LIMITS),
            1 => settings.restore_cfg = self.rng.pick(&[0xC5, 0xC6, 0xC7, 0xE7, 0xAD, 0xAE]),
            2 => settings.rule = self.rng.pick(&[0, 3, 255]),
            _ => settings.address = self.rng.pick(&[0x00, 0x0F, 0x11, 0xC1, 0xF0, 0xFF]),
        }
    }

    /// With a good summary.
    fn refused_settings_at_the_socket(&mut self) {
        for _ in 0..10 {
            let mut socket = self.small_socket();
            self.spoil_settings(&mut socket);
            self.put_socket_any_replies("want14-settings", &socket);
            socket.lent.clear();
            self.put_socket_any_replies("want14-settings-lent-nothing", &socket);
        }
    }
}
