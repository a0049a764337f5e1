//! Random sockets: two texts that differ anyhow, and a device that may be spoiled.

use super::Socket;
use crate::address::random_address;
use crate::device::{replies_of, Reply};
use crate::line::random_write;
use crate::sessions::Sessions;
use crate::text::{capital, Style};

impl Sessions {
    pub(super) fn random_sockets(&mut self) {
        for turn in 0..80 {
            let kind = self.rng.kind();
            let k = self.rng.pick(&[1, 1, 1, 2, 3]);
            let address = random_address(&mut self.rng);
            let mut session = self.session(kind, k).at(address);
            if turn % 2 == 0 {
                self.perturb(&mut session);
            }
            self.random_polls(&mut session);
            let style = Style::random(&mut self.rng);
            let mut socket = self.socket_of(session, style);
            self.change_lent(&mut socket);
            if turn % 8 == 0 {
                self.change_morning(&mut socket);
            }
            self.put_random_replies(&socket);
        }
    }

    fn put_random_replies(&mut self, socket: &Socket) {
        let mut steps = socket.session.steps();
        if self.rng.once_in(3) {
            let place = self.any_place(&steps);
            let faults = self.faulty_replies(socket.session.settings.address, &steps[place]);
            steps[place].reply = self.rng.pick(&faults).2;
        }
        let mut replies = replies_of(&steps);
        if self.rng.once_in(2) {
            replies.truncate(self.rng.below(replies.len() + 1));
        }
        if self.rng.once_in(4) {
            let place = self.rng.below(replies.len() + 1);
            replies.insert(place, Reply::random(&mut self.rng));
        }
        self.put_socket_replies("open-random", socket, &replies);
    }

    /// Up to three changes of the lent text, most of them behind the header.
    fn change_lent(&mut self, socket: &mut Socket) {
        for _ in 0..self.rng.from_to(0, 3) {
            let last = socket.lent.len() - 1;
            let (place, other) = (self.rng.from_to(4, last), self.rng.from_to(4, last));
            match self.rng.below(6) {
                0 => socket.lent.swap(place, other),
                1 => drop(socket.lent.remove(place)),
                2 => socket.lend(place + 1, &capital(&random_write(&mut self.rng))),
                3 => socket.lent.truncate(place + 1),
                4 => socket.lent[self.rng.below(5)].make_ascii_lowercase(),
                _ => {
                    let piece = &mut socket.lent[place];
                    let at = self.rng.below(piece.len());
                    piece[at] = self.rng.pick(b"0123456789ABCDEF\n\rG");
                }
            }
            if socket.lent.len() < 6 {
                return;
            }
        }
    }

    fn change_morning(&mut self, socket: &mut Socket) {
        let place = self.rng.below(socket.morning.len());
        socket.morning[place] ^= 1 << self.rng.below(8);
    }
}
