//! Another accepted file is lent than the one that was checked: what stands there goes out, and the
//! session goes on by the summary.

use super::{pieces_of, Socket};
use crate::draft::{identity_of, Draft, Kind, BOTH, PARTS};
use crate::line::{header, write};
use crate::sessions::Sessions;
use crate::text::{render, Ends, Style};

impl Sessions {
    pub(super) fn other_files(&mut self) {
        self.of_another_k();
        self.of_the_other_kind();
        self.of_the_same_shape();
        self.of_another_part();
    }

    /// A socket with this morning's file, lent one of another kind or k whose line 5 begins at the same
    /// place. Gives the lent file's lines.
    fn lent_another(&mut self, morning: (Kind, usize), lent: (Kind, usize)) -> (Socket, Draft) {
        let style = Style {
            ends: self.rng.pick(&[Ends::Lf, Ends::CrLf]),
            ..Style::random(&mut self.rng)
        };
        let mut socket = self.socket_in(style, morning.0, morning.1);
        let mut other = Draft::random(&mut self.rng, lent.0, lent.1);
        for (number, command) in [(3, 0x01), (4, 0x02)] {
            let count = socket.draft().get(number).len() - 5;
            other.set(number, header(command, &self.rng.bytes(count)));
        }
        socket.lent = pieces_of(&render(&mut self.rng, &other, style));
        (socket, other)
    }

    /// The longer file has another line where the shorter one has its burn.
    fn put_of_another_length(&mut self, morning: (Kind, usize), lent: (Kind, usize)) {
        let (socket, other) = self.lent_another(morning, lent);
        let label = format!(
            "{}-k{}-lent-{}-k{}",
            morning.0.name(),
            morning.1,
            lent.0.name(),
            lent.1
        );
        let number = socket.n().min(other.n());
        self.put_stuck(&label, &socket, number);
    }

    fn of_another_k(&mut self) {
        for kind in BOTH {
            for (morning, lent) in [(1, 2), (2, 1), (1, 8), (8, 1), (2, 3), (3, 2)] {
                self.put_of_another_length((kind, morning), (kind, lent));
            }
        }
    }

    fn of_the_other_kind(&mut self) {
        for k in 1..=3 {
            for (morning, lent) in [(BOTH[0], BOTH[1]), (BOTH[1], BOTH[0])] {
                self.put_of_another_length((morning, k), (lent, k));
            }
        }
    }

    /// The same kind and k with other data. The CRCs that count are the morning's: a device that shows
    /// those is DONE, one that shows the lent file's is a mismatch.
    fn of_the_same_shape(&mut self) {
        for kind in BOTH {
            for k in [1, 2, 3, 4, 5, 8] {
                let (mut socket, mut other) = self.lent_another((kind, k), (kind, k));
                let name = kind.name();
                self.put_socket(&format!("want0-lent-other-data-{name}-k{k}"), &socket);

                let first = self.rng.below(k);
                for config in first..k {
                    other.set(other.crc_line(config), self.other_crc(&socket, config));
                    socket.session.device.crcs[config] = other.configuration_crc(config);
                }
                self.lend_draft(&mut socket, &other);
                self.put_socket(&format!("want31n{first}-lent-crcs-{name}-k{k}"), &socket);
            }
        }
    }

    /// Lends a draft with the ends of the morning's file.
    fn lend_draft(&mut self, socket: &mut Socket, draft: &Draft) {
        let style = Style {
            ends: even_ends(socket),
            ..Style::random(&mut self.rng)
        };
        socket.lent = pieces_of(&render(&mut self.rng, draft, style));
    }

    /// A CRC line that differs from the morning's.
    fn other_crc(&mut self, socket: &Socket, config: usize) -> Vec<u8> {
        let crc = socket.draft().configuration_crc(config) ^ 1 << self.rng.below(32);
        write(0xC6, &crc.to_le_bytes())
    }

    /// The identity that counts is the morning's too.
    fn of_another_part(&mut self) {
        for kind in BOTH {
            let (mut socket, mut other) = self.lent_another((kind, 1), (kind, 1));
            let identity = self.identity_beside(socket.draft().identity());
            other.set(1, header(0xAD, &identity));
            self.lend_draft(&mut socket, &other);
            self.put_socket("want0-lent-another-part", &socket);
            socket.session.device.identity = u32::from_be_bytes(identity);
            self.put_socket("want24-device-of-the-lent-part", &socket);
        }
    }

    /// An accepted identity that is not this one.
    fn identity_beside(&mut self, identity: [u8; 4]) -> [u8; 4] {
        loop {
            let other = identity_of(self.rng.pick(&PARTS));
            if other != identity {
                return other;
            }
        }
    }
}

/// The ends of a text whose lines all have the same.
fn even_ends(socket: &Socket) -> Ends {
    if socket.morning.contains(&b'\r') {
        Ends::CrLf
    } else {
        Ends::Lf
    }
}
