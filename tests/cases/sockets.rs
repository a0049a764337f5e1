//! Case sockets: a file that is checked in the morning, and a dry run of a session that begins with its
//! summary and is lent a text (document 02, R-3).
//!
//! A label begins as a session's does. Where the second word is `checked5at7p13`, the morning's file is
//! one that is refused so; otherwise it is accepted, unless the case is `open` or its input is refused.

mod again;
mod inputs;
mod others;
mod random;
mod refused;
mod same;
mod shifted;
mod spoiled;
mod verdicts;

use crate::address::address_elsewhere;
use crate::device::{behind_its_length, input, replies_of, Reply, Step};
use crate::draft::{Draft, Kind};
use crate::line::{header, ADDRESS};
use crate::list::Case;
use crate::sessions::{Session, Sessions};
use crate::text::{render, Ends, Style};

/// The first line that is written to the device.
const FIRST: usize = 5;

/// All case sockets.
pub fn sockets(seed: u64) -> Vec<Case> {
    let mut sessions = Sessions::new(seed);
    sessions.same_texts();
    sessions.verdicts_at_the_socket();
    sessions.other_files();
    sessions.spoiled_texts();
    sessions.shifted_texts();
    sessions.replies_after_15();
    sessions.refused_mornings();
    sessions.socket_inputs();
    sessions.random_sockets();
    sessions.cases()
}

/// A session that begins with the summary of one text and is lent another, both the same before a case
/// spoils it. Its draft is the morning's.
pub struct Socket {
    pub session: Session,
    pub morning: Vec<u8>,
    /// The lines of the lent text, each with its end.
    pub lent: Vec<Vec<u8>>,
}

impl Socket {
    /// Lent the text that was checked.
    pub fn of(session: Session, morning: Vec<u8>) -> Socket {
        Socket {
            session,
            lent: pieces_of(&morning),
            morning,
        }
    }

    pub fn draft(&self) -> &Draft {
        &self.session.draft
    }

    pub fn n(&self) -> usize {
        self.draft().n()
    }

    /// Puts a text, without an end, where the line of this number stands in the lent text.
    pub fn lend(&mut self, number: usize, text: &[u8]) {
        let piece = &mut self.lent[number - 1];
        *piece = [text, parted(piece).1].concat();
    }

    /// The walk up to the request in hand when the line of this number is due.
    fn steps_before(&self, number: usize) -> Vec<Step> {
        let mut steps = self.session.steps();
        let due = format!("line-{number}");
        let named = steps.iter().position(|step| step.name == due);
        steps.truncate(named.expect("a line's name"));
        steps
    }
}

/// The lines of a text, each with its end.
pub fn pieces_of(text: &[u8]) -> Vec<Vec<u8>> {
    text.split_inclusive(|&byte| byte == b'\n')
        .map(<[u8]>::to_vec)
        .collect()
}

/// A line's text and its end.
fn parted(piece: &[u8]) -> (&[u8], &[u8]) {
    let ends: [&[u8]; 2] = [b"\r\n", b"\n"];
    let end = ends.iter().find(|end| piece.ends_with(end));
    piece.split_at(piece.len() - end.map_or(0, |end| end.len()))
}

impl Sessions {
    /// A socket whose text is in any style, with headers of any length.
    pub fn socket(&mut self, kind: Kind, k: usize) -> Socket {
        let style = Style::random(&mut self.rng);
        self.socket_in(style, kind, k)
    }

    pub fn socket_in(&mut self, style: Style, kind: Kind, k: usize) -> Socket {
        let address = self.c0_or_elsewhere();
        let session = self.session(kind, k).at(address);
        self.socket_of(session, style)
    }

    /// Each as often.
    fn c0_or_elsewhere(&mut self) -> u8 {
        if self.rng.once_in(2) {
            ADDRESS
        } else {
            address_elsewhere(&mut self.rng)
        }
    }

    /// A session's own socket.
    fn socket_of(&mut self, mut session: Session, style: Style) -> Socket {
        for (number, command) in [(3, 0x01), (4, 0x02)] {
            let count = self.rng.from_to(1, 32);
            let data = self.rng.bytes(count);
            session.draft.set(number, header(command, &data));
        }
        let morning = render(&mut self.rng, &session.draft, style);
        Socket::of(session, morning)
    }

    /// A socket with one configuration of either kind.
    pub fn small_socket(&mut self) -> Socket {
        let kind = self.rng.kind();
        self.socket(kind, 1)
    }

    /// The same, every line having the same end.
    fn even_socket(&mut self, ends: Ends) -> Socket {
        let kind = self.rng.kind();
        let style = Style {
            ends,
            ..Style::random(&mut self.rng)
        };
        self.socket_in(style, kind, 1)
    }

    /// With the replies of the session's own walk.
    pub fn put_socket(&mut self, label: &str, socket: &Socket) {
        self.put_socket_replies(label, socket, &socket.session.replies());
    }

    pub fn put_socket_replies(&mut self, label: &str, socket: &Socket, replies: &[Reply]) {
        let dry_run = input(socket.session.settings, &socket.lent.concat(), replies);
        let morning = behind_its_length(&socket.morning);
        self.put_bytes(label, &[morning, dry_run].concat());
    }

    /// Where nothing in the lent text can go out as the line of this number: the replies end with the
    /// one that is answered with 15, or go on with others that are.
    pub fn put_stuck(&mut self, label: &str, socket: &Socket, number: usize) {
        let mut replies = replies_of(&socket.steps_before(number));
        for _ in 0..self.rng.pick(&[0, 0, 1, 3]) {
            replies.push(self.good_again(socket, number));
        }
        let label = format!("want15-at-line-{number}-{label}");
        self.put_socket_replies(&label, socket, &replies);
    }

    /// One more good reply to the request in hand when the line of this number is due: behind the read
    /// of AE with any revision that is not OLD.
    fn good_again(&mut self, socket: &Socket, number: usize) -> Reply {
        if number == FIRST {
            let revision = (self.rng.from_to(6, 255) as u32) << 24 | self.rng.word() >> 8;
            Reply::block(socket.session.settings.address, 0xAE, revision)
        } else {
            Reply::done(Vec::new())
        }
    }

    /// Lines worth trying: the first two, one in the middle, and the last two.
    fn some_lines(&mut self, socket: &Socket) -> [usize; 5] {
        let n = socket.n();
        [FIRST, 6, self.rng.from_to(7, n - 2), n - 1, n]
    }
}
