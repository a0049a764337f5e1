//! The text that was checked is lent, or one that differs from it where no call looks: DONE.

use super::{parted, pieces_of, Socket, FIRST};
use crate::device::RULES;
use crate::draft::BOTH;
use crate::line::{header, random_write};
use crate::numbers::{SAME, SPOT};
use crate::sessions::inputs::ROOM_FOR_FILE;
use crate::sessions::Sessions;
use crate::text::{capital, Ends, Style, ALL_ENDS};

impl Sessions {
    pub(super) fn same_texts(&mut self) {
        self.same_of_each_k();
        self.same_elsewhere();
        self.same_under_each_rule();
        self.other_letters();
        self.other_ends_behind_the_header();
        self.other_last_ends();
        self.other_headers();
        self.more_behind_the_burn();
        self.lines_that_a_check_refuses();
    }

    fn same_of_each_k(&mut self) {
        for kind in BOTH {
            for k in 1..=8 {
                let socket = self.socket(kind, k);
                self.put_socket(&format!("want0-same-{}-k{k}", kind.name()), &socket);
            }
        }
    }

    fn same_elsewhere(&mut self) {
        for address in self.some_addresses() {
            let session = self.session_with_three_polls(2).at(address);
            let style = Style::random(&mut self.rng);
            let socket = self.socket_of(session, style);
            self.put_socket(&format!("want0-same-at-{address:02x}"), &socket);
        }
    }

    fn same_under_each_rule(&mut self) {
        for rule in RULES {
            for kind in BOTH {
                let session = self.session_under(rule, kind, 2);
                let style = Style::random(&mut self.rng);
                let socket = self.socket_of(session, style);
                let label = format!("want0-same-rule{rule}-{}", kind.name());
                self.put_socket(&label, &socket);
            }
        }
    }

    /// Letters of the other size stand in the same places.
    fn other_letters(&mut self) {
        for _ in 0..3 {
            let mut socket = self.small_socket();
            for piece in &mut socket.lent {
                piece.make_ascii_lowercase();
            }
            self.put_socket("want0-small-letters", &socket);
            for piece in &mut socket.lent {
                piece.make_ascii_uppercase();
            }
            self.put_socket("want0-capital-letters", &socket);
        }
    }

    /// From line 5 on the ends may differ: a line begins where the one before it ended.
    fn other_ends_behind_the_header(&mut self) {
        for ends in ALL_ENDS {
            for end in [&b"\n"[..], b"\r\n"] {
                let mut socket = self.even_socket(ends);
                for piece in &mut socket.lent[FIRST - 1..] {
                    *piece = [parted(piece).0, end].concat();
                }
                self.put_socket("want0-other-ends-behind-the-header", &socket);
            }
        }
    }

    fn other_last_ends(&mut self) {
        for (last_end, label) in [(true, "want0-last-end-gone"), (false, "want0-last-end-put")] {
            let style = Style {
                last_end,
                ..Style::random(&mut self.rng)
            };
            let kind = self.rng.kind();
            let mut socket = self.socket_in(style, kind, 1);
            let n = socket.n();
            let burn = capital(socket.draft().get(n));
            socket.lent[n - 1] = if last_end {
                burn
            } else {
                [burn, b"\n".to_vec()].concat()
            };
            self.put_socket(label, &socket);
        }
    }

    /// No call looks at what stands before line 5: another identity and revision, or any bytes.
    fn other_headers(&mut self) {
        let mut socket = self.small_socket();
        socket.lend(1, &capital(&header(0xAD, &[0x49, 0xD2, 0x85, 0x00])));
        socket.lend(2, &capital(&header(0xAE, &[0x02, 0, 0, 0])));
        self.put_socket("want0-header-of-no-part", &socket);

        let mut socket = self.small_socket();
        let bytes: usize = socket.lent[..FIRST - 1].iter().map(Vec::len).sum();
        let behind = socket.lent.split_off(FIRST - 1);
        for label in ["any-bytes", "line-feeds", "zeros"] {
            let before = match label {
                "any-bytes" => self.rng.bytes(bytes),
                "line-feeds" => vec![b'\n'; bytes],
                _ => vec![0; bytes],
            };
            socket.lent = [vec![before], behind.clone()].concat();
            self.put_socket(&format!("want0-header-of-{label}"), &socket);
        }
    }

    /// Nothing behind line n is looked at, and the size is not, where it is more than a file has.
    fn more_behind_the_burn(&mut self) {
        for (label, size) in [("a-little", 40), ("over-the-size", ROOM_FOR_FILE)] {
            let mut socket = self.even_socket(Ends::Lf);
            let n = socket.n();
            socket.lent[n - 1] = [&capital(socket.draft().get(n))[..], b"\n"].concat();
            let used = socket.lent.concat().len();
            let more = if size < used { size } else { size - used };
            socket.lent.push(self.rng.bytes(more));
            self.put_socket(&format!("want0-{label}-behind-the-burn"), &socket);
        }
        let mut socket = self.small_socket();
        let n = socket.n();
        let again = pieces_of(&socket.morning);
        socket.lend(n, &capital(socket.draft().get(n)));
        socket.lent[n - 1].extend_from_slice(b"\r\n");
        socket.lent.extend(again);
        self.put_socket("want0-twice", &socket);
    }

    /// What 11 and 13 look at in a file is not looked at again: identifiers and CRCs are the summary's.
    fn lines_that_a_check_refuses(&mut self) {
        for kind in BOTH {
            let mut socket = self.socket(kind, 2);
            spoil_spots(self, &mut socket, SPOT);
            self.put_socket("want0-lent-spots-carry-others", &socket);
            let mut socket = self.socket(kind, 2);
            spoil_spots(self, &mut socket, SAME);
            self.put_socket("want0-lent-identifiers-are-equal", &socket);
        }
    }
}

/// Lends a text that a check refuses by one of the two numbers.
fn spoil_spots(sessions: &mut Sessions, socket: &mut Socket, number: u8) {
    let draft = socket.draft().clone();
    for config in 0..draft.k {
        let (identifier, crc) = (draft.id_line(config), draft.crc_line(config));
        if number == SAME {
            socket.lend(identifier, &capital(draft.get(draft.id_line(0))));
        } else {
            socket.lend(identifier, &capital(&random_write(&mut sessions.rng)));
            socket.lend(crc, &capital(&random_write(&mut sessions.rng)));
        }
    }
}
