//! Each verdict of a session that is lent the text that was checked, and replies that run out.

use super::{Socket, FIRST};
use crate::device::replies_of;
use crate::sessions::addresses::spoil;
use crate::sessions::Sessions;
use crate::text::Style;

const MISMATCH: u8 = 31;

impl Sessions {
    pub(super) fn verdicts_at_the_socket(&mut self) {
        for _ in 0..10 {
            for verdict in [20, 21, 22] {
                self.put_faulty_reply_at_the_socket(verdict);
            }
            for verdict in 23..=MISMATCH {
                let mut socket = self.socket_with_three_polls();
                spoil(&mut socket.session, verdict);
                let config = if verdict == MISMATCH { "n1" } else { "" };
                self.put_socket(&format!("want{verdict}{config}-same"), &socket);
            }
        }
        self.running_out_at_the_socket();
    }

    /// A socket of two configurations with three polls.
    fn socket_with_three_polls(&mut self) -> Socket {
        let address = self.c0_or_elsewhere();
        let session = self.session_with_three_polls(2).at(address);
        let style = Style::random(&mut self.rng);
        self.socket_of(session, style)
    }

    fn put_faulty_reply_at_the_socket(&mut self, verdict: u8) {
        let socket = self.socket_with_three_polls();
        let address = socket.session.settings.address;
        let mut steps = socket.session.steps();
        loop {
            let place = self.any_place(&steps);
            let faults = self.surely_faulty_replies(address, &steps[place], verdict);
            if !faults.is_empty() {
                let (_, fault, reply) = self.rng.pick(&faults);
                steps[place].reply = reply;
                let label = format!("want{verdict}-same-{fault}-at-{}", steps[place].name);
                let mut replies = replies_of(&steps);
                self.with_any_tail(&mut replies, place);
                return self.put_socket_replies(&label, &socket, &replies);
            }
        }
    }

    /// Replies that end anywhere; and some that end before a line is due, so that it is nothing to them
    /// that none is lent.
    fn running_out_at_the_socket(&mut self) {
        for _ in 0..12 {
            let socket = self.small_socket();
            let mut replies = socket.session.replies();
            replies.truncate(self.rng.below(replies.len()));
            let label = format!("waiting-after-{}", replies.len());
            self.put_socket_replies(&label, &socket, &replies);
        }
        for _ in 0..6 {
            let mut socket = self.socket_with_three_polls();
            socket.lent.clear();
            let mut replies = replies_of(&socket.steps_before(FIRST));
            replies.truncate(self.rng.below(replies.len()));
            let label = format!("waiting-after-{}-lent-nothing", replies.len());
            self.put_socket_replies(&label, &socket, &replies);
        }
    }
}
