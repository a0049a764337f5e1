//! Replies that run out before a verdict, and replies that go on past it.

use super::{Session, Sessions};
use crate::device::{replies_of, Reply};

/// A request of every kind, by its name in the walk.
const EVERY_KIND: [&str; 24] = [
    "setup-select",
    "setup",
    "setup-back",
    "setup-apply",
    "counter-select",
    "counter",
    "identity",
    "flag-select",
    "flag",
    "revision",
    "line-5",
    "line-6",
    "status-select",
    "poll-1",
    "poll-2",
    "poll-3",
    "banks-select",
    "banks",
    "restore-0",
    "crc-select-0",
    "crc-0",
    "restore-1",
    "crc-select-1",
    "crc-1",
];

impl Sessions {
    /// Replies that end before a verdict, at every kind of request and at random.
    pub(super) fn running_out(&mut self) {
        for name in EVERY_KIND {
            let session = self.session_with_three_polls(2);
            self.run_out_at(&session, name);
        }
        for less in [0, 1, 2] {
            let session = self.session_with_three_polls(1);
            let name = format!("line-{}", session.draft.n() - less);
            self.run_out_at(&session, &name);
        }
        for _ in 0..24 {
            let session = self.small_session();
            let mut replies = session.replies();
            replies.truncate(self.rng.below(replies.len()));
            self.put_replies(
                &format!("waiting-after-{}", replies.len()),
                &session,
                &replies,
            );
        }
    }

    /// The replies end before the one to the request of this name.
    fn run_out_at(&mut self, session: &Session, name: &str) {
        let steps = session.steps();
        let place = steps
            .iter()
            .position(|step| step.name == name)
            .expect("a step's name");
        let replies = replies_of(&steps[..place]);
        self.put_replies(&format!("waiting-at-{name}"), session, &replies);
    }

    /// More replies after DONE: none of them counts.
    pub(super) fn past_the_verdict(&mut self) {
        for more in [1, 2, 5, 20, 100] {
            for _ in 0..2 {
                let session = self.small_session();
                let mut replies = session.replies();
                for _ in 0..more {
                    replies.push(Reply::random(&mut self.rng));
                }
                self.put_replies(&format!("want0-and-{more}-more"), &session, &replies);
            }
        }
    }
}
