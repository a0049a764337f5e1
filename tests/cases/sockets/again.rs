//! Replies behind one that is answered with 15: each is judged for the same request again.

use super::{Socket, FIRST};
use crate::device::{replies_of, Reply, Step};
use crate::sessions::addresses::spoil;
use crate::sessions::reply_faults::Faulty;
use crate::sessions::Sessions;

const OLD: u8 = 26;

impl Sessions {
    pub(super) fn replies_after_15(&mut self) {
        for _ in 0..12 {
            for verdict in [20, 21, 22] {
                self.put_fault_after_15(FIRST, verdict);
            }
            for verdict in [20, 21] {
                let number = self.rng.from_to(6, 349);
                self.put_fault_after_15(number, verdict);
            }
            self.put_old_after_15();
        }
        self.walks_that_go_on();
        self.device_before_the_line();
    }

    /// A socket that is stuck at the line of this number: the text ends before it.
    fn stuck_socket(&mut self, number: usize) -> Socket {
        let mut socket = self.small_socket();
        socket.lent.truncate(number - 1);
        socket
    }

    /// The replies up to one that is answered with 15, and up to three more that are.
    fn replies_to_15(&mut self, socket: &Socket, number: usize) -> Vec<Reply> {
        let mut replies = replies_of(&socket.steps_before(number));
        for _ in 0..self.rng.below(4) {
            replies.push(self.good_again(socket, number));
        }
        replies
    }

    fn put_fault_after_15(&mut self, number: usize, verdict: u8) {
        let socket = self.stuck_socket(number);
        let in_hand = socket.steps_before(number).pop().expect("a request");
        let address = socket.session.settings.address;
        let faults = self.surely_faulty_replies(address, &in_hand, verdict);
        let (_, fault, reply) = self.rng.pick(&faults);
        let mut replies = self.replies_to_15(&socket, number);
        let label = format!("want{verdict}-after-15-at-line-{number}-{fault}");
        self.put_ended(&label, &socket, &mut replies, reply);
    }

    /// "23 to 28 are tried after the AE reply": another one has another revision.
    fn put_old_after_15(&mut self) {
        let socket = self.stuck_socket(FIRST);
        let revision = (self.rng.below(6) as u32) << 24 | self.rng.word() >> 8;
        let old = Reply::block(socket.session.settings.address, 0xAE, revision);
        let mut replies = self.replies_to_15(&socket, FIRST);
        let label = format!("want{OLD}-after-15-revision-{revision:08x}");
        self.put_ended(&label, &socket, &mut replies, old);
    }

    /// The reply that ends it, and anything behind that.
    fn put_ended(&mut self, label: &str, socket: &Socket, replies: &mut Vec<Reply>, last: Reply) {
        let place = replies.len();
        replies.push(last);
        replies.extend(vec![Reply::done(Vec::new()); 3]);
        self.with_any_tail(replies, place);
        self.put_socket_replies(label, socket, replies);
    }

    /// A host that goes on with the replies of the whole walk: the acknowledgement of a line is no reply
    /// to the read of AE, and what a poll reads is none to a line.
    fn walks_that_go_on(&mut self) {
        for number in [FIRST, 6, 7, 100] {
            let socket = self.stuck_socket(number);
            self.put_socket(&format!("want21-walk-goes-on-at-line-{number}"), &socket);
        }
    }

    /// "After 20 to 28, when a write line is due": those come first, though nothing is lent.
    fn device_before_the_line(&mut self) {
        for verdict in 23..=28 {
            let mut socket = self.stuck_socket(FIRST);
            spoil(&mut socket.session, verdict);
            self.put_socket(&format!("want{verdict}-lent-nothing"), &socket);
        }
        for verdict in [20, 21, 22] {
            let socket = self.stuck_socket(FIRST);
            let mut replies = replies_of(&socket.steps_before(FIRST));
            let in_hand = socket.steps_before(FIRST).pop().expect("a request");
            let address = socket.session.settings.address;
            let faults = self.surely_faulty_replies(address, &in_hand, verdict);
            let (_, fault, reply) = self.rng.pick(&faults);
            replies.pop();
            let label = format!("want{verdict}-lent-nothing-{fault}");
            self.put_ended(&label, &socket, &mut replies, reply);
        }
    }

    /// The faulty replies to a request that give this verdict at any address.
    pub(super) fn surely_faulty_replies(
        &mut self,
        address: u8,
        step: &Step,
        verdict: u8,
    ) -> Vec<Faulty> {
        let mut faults = self.faulty_replies(address, step);
        faults.retain(|fault| fault.0 == verdict && fault.1 != "pec-without-c1");
        faults
    }
}
