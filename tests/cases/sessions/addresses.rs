//! Devices at other addresses than C0 (document 02, R-2).

use super::judged::spoil_device;
use super::{Session, Sessions};
use crate::address::{address_elsewhere, allows_address, read_address};
use crate::device::{input, replies_of, Reply};
use crate::draft::BOTH;
use crate::ending::{at, At};
use crate::line::{line, ADDRESS};
use crate::numbers::{CRC, FORM};
use crate::spoil::Field;
use crate::text::{capital, with_line};

const SETTING: u8 = 14;
const PROGRAM: u8 = 29;
const BANKS: u8 = 30;
const MISMATCH: u8 = 31;

/// The ends of what is allowed, and C0 with a neighbour.
const ADDRESSES: [u8; 5] = [0x10, 0x12, 0xC0, 0xC2, 0xEE];

/// Every read, by its name in the walk of a session with one configuration.
const READS: [&str; 8] = [
    "setup", "counter", "identity", "flag", "revision", "poll-1", "banks", "crc-0",
];

impl Sessions {
    pub(super) fn addresses(&mut self) {
        self.each_byte_as_address();
        self.done_elsewhere();
        self.wrong_pecs();
        self.verdicts_elsewhere();
        self.refused_addresses();
        self.files_that_say_the_address();
        self.inputs_elsewhere();
        self.random_sessions_anywhere();
    }

    /// Every byte as the address: DONE at those that are allowed, 14 at the others.
    fn each_byte_as_address(&mut self) {
        for address in 0..=u8::MAX {
            let verdict = if allows_address(address) { 0 } else { SETTING };
            let session = self.small_session().at(address);
            self.put(&format!("want{verdict}-address-{address:02x}"), &session);
        }
    }

    /// The addresses of the list, and some others.
    pub(crate) fn some_addresses(&mut self) -> Vec<u8> {
        let mut addresses = ADDRESSES.to_vec();
        addresses.extend((0..3).map(|_| address_elsewhere(&mut self.rng)));
        addresses
    }

    /// With every request of the guide's list; with the address as RESTORE_CFG code as well, which is
    /// another setting; and with all configurations.
    fn done_elsewhere(&mut self) {
        for address in self.some_addresses() {
            for k in [1, 2] {
                let session = self.session_with_three_polls(k).at(address);
                self.put(&format!("want0-at-{address:02x}-k{k}"), &session);
            }
        }
        for address in ADDRESSES {
            let mut session = self.small_session().at(address);
            session.settings.restore_cfg = address;
            self.put(&format!("want0-at-{address:02x}-restore"), &session);
        }
        for kind in BOTH {
            let address = address_elsewhere(&mut self.rng);
            let session = self.session(kind, 8).at(address);
            let name = kind.name();
            self.put(&format!("want0-at-{address:02x}-{name}-k8"), &session);
        }
    }

    /// At each address, at each read: a PEC with a wrong bit, the right one of another address, and in
    /// turn one of those that mix the addresses.
    fn wrong_pecs(&mut self) {
        let mut turn = 0;
        for address in self.some_addresses() {
            for read in READS {
                let session = self.session_with_three_polls(1).at(address);
                self.put_wrong_pecs(&session, read, turn);
                turn += 1;
            }
        }
    }

    fn put_wrong_pecs(&mut self, session: &Session, read: &str, turn: usize) {
        let address = session.settings.address;
        let steps = session.steps();
        let named = steps.iter().position(|step| step.name == read);
        let place = named.expect("a step's name");
        let command = steps[place].read.expect("a read");
        let good = &steps[place].reply.bytes;
        let data = &good[..good.len() - 1];

        let mut wrong_bit = good.clone();
        wrong_bit[data.len()] ^= 1 << self.rng.below(8);
        let of_another = Reply::sealed(other(address), command, data.to_vec());
        let mixes = mixed_addresses(address, command);
        let (mix, covered) = mixes[turn % mixes.len()];
        let mixed = Reply::sealed_over(&covered, data.to_vec());
        let wrong_bit = Reply::done(wrong_bit);
        for (fault, reply) in [("bit", wrong_bit), ("other", of_another), (mix, mixed)] {
            let mut replies = replies_of(&steps);
            replies[place] = reply;
            self.with_any_tail(&mut replies, place);
            let label = format!("want22-at-{address:02x}-{fault}-at-{read}");
            self.put_replies(&label, session, &replies);
        }
    }

    /// Each other verdict from 20 on, at any request where a reply gives it.
    fn verdicts_elsewhere(&mut self) {
        for _ in 0..10 {
            for verdict in [20, 21] {
                self.put_faulty_reply(verdict);
            }
            for verdict in 23..=MISMATCH {
                let address = address_elsewhere(&mut self.rng);
                let mut session = self.session_with_three_polls(2).at(address);
                spoil(&mut session, verdict);
                let config = if verdict == MISMATCH { "n1" } else { "" };
                self.put(&format!("want{verdict}{config}-at-{address:02x}"), &session);
            }
        }
    }

    fn put_faulty_reply(&mut self, verdict: u8) {
        let address = address_elsewhere(&mut self.rng);
        let session = self.session_with_three_polls(2).at(address);
        let mut steps = session.steps();
        let place = self.any_place(&steps);
        let mut faults = self.faulty_replies(address, &steps[place]);
        faults.retain(|fault| fault.0 == verdict);
        let (_, fault, reply) = self.rng.pick(&faults);
        steps[place].reply = reply;
        let label = format!(
            "want{verdict}-at-{address:02x}-{fault}-at-{}",
            steps[place].name
        );
        self.put_replies(&label, &session, &replies_of(&steps));
    }

    /// "The file still says C0 and its CRC is still judged so": every line says the address in use, or
    /// one alone does, with the CRC at it or at C0, or says C0 with the CRC at the address in use.
    fn files_that_say_the_address(&mut self) {
        let mut addresses = self.some_addresses();
        addresses.retain(|&address| address != ADDRESS);
        for address in addresses {
            let (mut draft, number) = self.draft_and_line();
            let good = draft.get(number).to_vec();
            let said = saying(address, &good);
            let last = good.len() - 1;
            let crc_at_c0 = [&said[..last], &good[last..]].concat();
            let crc_elsewhere = [&good[..last], &said[last..]].concat();
            for (refusal, place, wrong) in [
                (FORM, Field::Address.place(), said),
                (CRC, 2 * last + 1, crc_at_c0),
                (CRC, 2 * last + 1, crc_elsewhere),
            ] {
                let file = with_line(&mut self.rng, &draft, number, &capital(&wrong));
                self.put_with_file(address, refusal, at(number, place), &file);
            }
            for good in &mut draft.lines {
                *good = saying(address, good);
            }
            let file = self.file(&draft);
            self.put_with_file(address, FORM, at(1, Field::Address.place()), &file);
        }
    }

    /// A session at an address that this file does not let begin.
    fn put_with_file(&mut self, address: u8, refusal: u8, at: At, file: &[u8]) {
        let session = self.small_session().at(address);
        let bytes = input(session.settings, file, &session.replies());
        self.put_bytes(
            &format!("want{refusal}{at}-file-says-{address:02x}"),
            &bytes,
        );
    }
}

/// Another address: C0 wherever it is not in use.
fn other(address: u8) -> u8 {
    if address == ADDRESS {
        0xC2
    } else {
        ADDRESS
    }
}

/// What a reply's PEC covers where the write and the read address are mistaken for each other, or one
/// of them is another's, each with a name. None of these PECs is ever the right one: the bytes are as
/// many as should be covered, and they differ from those in a bit or two, or in one byte.
fn mixed_addresses(address: u8, command: u8) -> [(&'static str, [u8; 3]); 5] {
    let read = read_address(address);
    let other = other(address);
    [
        ("write-for-read", [address, command, address]),
        ("read-for-write", [read, command, read]),
        ("swapped", [read, command, address]),
        ("other-write", [other, command, read]),
        ("other-read", [address, command, read_address(other)]),
    ]
}

/// Spoils a device so that a session with it ends with this verdict from 23 on, 31 with N 1.
pub(crate) fn spoil(session: &mut Session, verdict: u8) {
    match verdict {
        PROGRAM => session.device.statuses = vec![0x00, 0x09],
        BANKS => session.device.banks ^= 0x10,
        MISMATCH => session.device.crcs[1] ^= 1,
        _ => spoil_device(session, &[verdict]),
    }
}

/// A line that says this address, with the CRC at it.
fn saying(address: u8, good: &[u8]) -> Vec<u8> {
    line(good[0], address, good[3], &good[4..good.len() - 1])
}
