//! NACK, SHAPE and PEC at every kind of request.

use super::{Session, Sessions};
use crate::device::{replies_of, Reply, Step};

/// A reply that ends a session: the verdict that it gives, its name, and itself.
pub(crate) type Faulty = (u8, &'static str, Reply);

impl Sessions {
    pub(super) fn reply_faults(&mut self) {
        let early = ["setup-select", "setup", "setup-back", "setup-apply"];
        let device = [
            "counter-select",
            "counter",
            "identity",
            "flag-select",
            "flag",
            "revision",
        ];
        let late = ["status-select", "poll-1", "poll-3", "banks-select", "banks"];
        let end = ["restore-0", "crc-select-0", "crc-0"];
        for name in early.into_iter().chain(device).chain(late).chain(end) {
            let session = self.session_with_three_polls(1);
            self.faults_at(&session, name);
        }
        for name in ["restore-1", "crc-select-1", "crc-1"] {
            let session = self.session_with_three_polls(2);
            self.faults_at(&session, name);
        }
        for turn in 0..5 {
            let session = self.session_with_three_polls(1);
            let draft = &session.draft;
            let middle = self.rng.from_to(6, draft.n() - 1);
            let number = [5, 6, middle, draft.n() - 1, draft.n()][turn];
            self.faults_at(&session, &format!("line-{number}"));
        }
    }

    pub(crate) fn session_with_three_polls(&mut self, k: usize) -> Session {
        let kind = self.rng.kind();
        let mut session = self.session(kind, k);
        session.settings.step_1 = 1;
        session.settings.poll_limit = self.rng.pick(&[3, 7, 10_000]);
        session.device.statuses = vec![0x00, 0x10, 0x01];
        session
    }

    fn faults_at(&mut self, session: &Session, name: &str) {
        let steps = session.steps();
        let place = steps
            .iter()
            .position(|step| step.name == name)
            .expect("a step's name");
        let address = session.settings.address;
        for (verdict, fault, reply) in self.faulty_replies(address, &steps[place]) {
            let mut replies = replies_of(&steps);
            replies[place] = reply;
            self.with_any_tail(&mut replies, place);
            self.put_replies(
                &format!("want{verdict}-{fault}-at-{name}"),
                session,
                &replies,
            );
        }
    }

    /// Faulty replies to a request at an address.
    pub(crate) fn faulty_replies(&mut self, address: u8, step: &Step) -> Vec<Faulty> {
        let mut faults = match step.read {
            None => self.faulty_write_replies(address),
            Some(command) => self.faulty_read_replies(address, command, &step.reply.bytes),
        };
        let good = &step.reply.bytes;
        faults.push((
            20,
            "nack",
            Reply {
                kind: 0,
                bytes: Vec::new(),
            },
        ));
        faults.push((
            21,
            "kind-2",
            Reply {
                kind: 2,
                bytes: good.clone(),
            },
        ));
        let kind = self.rng.from_to(3, 255) as u8;
        faults.push((
            21,
            "kind-above",
            Reply {
                kind,
                bytes: good.clone(),
            },
        ));
        faults
    }

    fn faulty_write_replies(&mut self, address: u8) -> Vec<Faulty> {
        let some = self.rng.from_to(1, 8);
        vec![
            (
                20,
                "nack-with-bytes",
                Reply {
                    kind: 0,
                    bytes: self.rng.bytes(some),
                },
            ),
            (21, "one-byte", Reply::done(vec![0])),
            (21, "five-bytes", Reply::register(address, 1)),
            (
                21,
                "kind-255-with-bytes",
                Reply {
                    kind: 255,
                    bytes: self.rng.bytes(some),
                },
            ),
        ]
    }

    /// Where the read address is left out, the PEC is a wrong one at C0, though not at every address.
    fn faulty_read_replies(&mut self, address: u8, command: u8, good: &[u8]) -> Vec<Faulty> {
        let sealed = |bytes: Vec<u8>| Reply::sealed(address, command, bytes);
        let last = good.len() - 1;
        let (data, changed_bit) = (&good[..last], 1 << self.rng.below(8));
        let mut wrong_pec = good.to_vec();
        wrong_pec[last] ^= changed_bit;
        let mut wrong_data = good.to_vec();
        wrong_data[last - 1] ^= changed_bit;
        let pec_without = Reply::sealed_over(&[address, command], data.to_vec());

        let mut faults = vec![
            (
                20,
                "nack-with-good-bytes",
                Reply {
                    kind: 0,
                    bytes: good.to_vec(),
                },
            ),
            (21, "no-bytes", Reply::done(Vec::new())),
            (21, "without-pec", Reply::done(data.to_vec())),
            (21, "short", sealed(data[..last - 1].to_vec())),
            (21, "long", sealed([data, &[0]].concat())),
            (21, "very-long", Reply::done(self.rng.bytes(255))),
            (22, "wrong-pec", Reply::done(wrong_pec)),
            (22, "wrong-data", Reply::done(wrong_data)),
            (22, "pec-without-c1", pec_without),
        ];
        if command != 0xC5 {
            faults.extend(faulty_blocks(good, sealed));
        }
        faults
    }
}

/// Replies to AD or AE whose block count is wrong or missing.
fn faulty_blocks(good: &[u8], sealed: impl Fn(Vec<u8>) -> Reply) -> Vec<Faulty> {
    let data = &good[1..good.len() - 1];
    let counts = [
        ("block-3", 3),
        ("block-5", 5),
        ("block-0", 0),
        ("block-84", 0x84),
    ];
    let mut faults: Vec<Faulty> = counts
        .into_iter()
        .map(|(name, count)| (21, name, sealed([&[count], data].concat())))
        .collect();
    let mut both = good.to_vec();
    both[0] = 6;
    faults.push((21, "block-6-and-pec", Reply::done(both)));
    faults.push((21, "no-block", sealed(data.to_vec())));
    faults
}
