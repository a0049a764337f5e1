//! A simulated regulator: it walks along the requests it expects and gives its replies.
//!
//! It judges nothing. A case spoils what the device holds, or one of its replies.

use crate::address::read_address;
use crate::draft::{Draft, Kind};
use crate::line::pec;
use crate::random::Rng;

pub const PRODUCTION_FLAG: u32 = 0xFFFE_0001;

/// How many bytes of a dry run's input the settings take, and which of them are the house rule and
/// the address.
pub const SETTINGS_BYTES: usize = 6;
pub const RULE_PLACE: usize = 4;
pub const ADDRESS_PLACE: usize = 5;
/// The length that stands before a file.
pub const LENGTH_BYTES: usize = 4;
/// The settings and the file's length, which the file stands behind.
pub const HEADER_BYTES: usize = SETTINGS_BYTES + LENGTH_BYTES;

/// What stands before the file of a dry run. `step_1` 0 is "not wanted".
#[derive(Clone, Copy)]
pub struct Settings {
    pub step_1: u8,
    pub poll_limit: u16,
    pub restore_cfg: u8,
    pub rule: u8,
    pub address: u8,
}

impl Settings {
    fn bytes(self) -> [u8; SETTINGS_BYTES] {
        let [limit_low, limit_high] = self.poll_limit.to_le_bytes();
        [
            self.step_1,
            limit_low,
            limit_high,
            self.restore_cfg,
            self.rule,
            self.address,
        ]
    }
}

/// The house rules that are allowed (document 02, R-13).
pub const RULES: [u8; 2] = [1, 2];

/// The least counter that is not PLACES for k configurations under an allowed rule, PLACES being:
/// "under rule 1, k is more than the counter; under rule 2, k + 2 is".
pub fn least_counter(rule: u8, k: usize) -> u32 {
    let kept = if rule == 2 { 2 } else { 0 };
    k as u32 + kept
}

#[derive(Clone)]
pub struct Reply {
    pub kind: u8,
    pub bytes: Vec<u8>,
}

impl Reply {
    pub fn done(bytes: Vec<u8>) -> Reply {
        Reply { kind: 1, bytes }
    }

    /// A right reply to a read of C5 at an address.
    pub fn register(address: u8, value: u32) -> Reply {
        Reply::sealed(address, 0xC5, value.to_le_bytes().to_vec())
    }

    /// A right reply to a read of AD or AE at an address.
    pub fn block(address: u8, command: u8, value: u32) -> Reply {
        Reply::sealed(address, command, [&[4][..], &value.to_le_bytes()].concat())
    }

    /// Bytes with the right PEC for a read at an address behind them.
    pub fn sealed(address: u8, command: u8, bytes: Vec<u8>) -> Reply {
        Reply::sealed_over(&[address, command, read_address(address)], bytes)
    }

    /// Bytes with a PEC behind them that covers others before them.
    pub fn sealed_over(before: &[u8], mut bytes: Vec<u8>) -> Reply {
        bytes.push(pec(&[before, &bytes[..]].concat()));
        Reply::done(bytes)
    }

    pub fn random(rng: &mut Rng) -> Reply {
        let kind = rng.pick(&[0, 1, 1, 1, 2, 255]);
        let count = rng.pick(&[0, 0, 1, 4, 5, 6, 9]);
        Reply {
            kind,
            bytes: rng.bytes(count),
        }
    }
}

/// A request that is expected, and the reply to it. `read` is the command if it is a read.
#[derive(Clone)]
pub struct Step {
    pub name: String,
    pub read: Option<u8>,
    pub reply: Reply,
}

/// What the regulator holds.
#[derive(Clone)]
pub struct Device {
    pub setup: u32,
    pub counter: u32,
    pub identity: u32,
    pub flag: u32,
    pub revision: u32,
    pub statuses: Vec<u32>,
    pub banks: u32,
    pub crcs: Vec<u32>,
}

impl Device {
    /// A device with which a session of this file under this house rule is done.
    pub fn fitting(rng: &mut Rng, draft: &Draft, rule: u8) -> Device {
        let (counter, flag) = fitting_counter(rng, draft, rule);
        Device {
            setup: rng.word(),
            counter,
            identity: u32::from_be_bytes(draft.identity()),
            flag,
            revision: (rng.from_to(6, 255) as u32) << 24 | rng.word() >> 8,
            statuses: vec![0x01],
            banks: right_banks(draft.k),
            crcs: (0..draft.k)
                .map(|config| draft.configuration_crc(config))
                .collect(),
        }
    }

    /// The walk along steps 1 to 6, to the end, whatever would be found on the way. The replies are
    /// those of a device at the settings' address.
    pub fn walk(&self, draft: &Draft, settings: Settings) -> Vec<Step> {
        let mut walk = Walk {
            address: settings.address,
            steps: Vec::new(),
        };
        if settings.step_1 != 0 {
            walk.write("setup-select");
            walk.register("setup", self.setup);
            walk.write("setup-back");
            walk.write("setup-apply");
        }
        walk.write("counter-select");
        walk.register("counter", self.counter);
        walk.block("identity", 0xAD, self.identity);
        walk.write("flag-select");
        walk.register("flag", self.flag);
        walk.block("revision", 0xAE, self.revision);
        for number in 5..=draft.n() {
            walk.write(&format!("line-{number}"));
        }
        walk.write("status-select");
        for (poll, &status) in (1..).zip(&self.statuses) {
            walk.register(&format!("poll-{poll}"), status);
        }
        walk.write("banks-select");
        walk.register("banks", self.banks);
        for (config, &crc) in self.crcs.iter().enumerate() {
            walk.write(&format!("restore-{config}"));
            walk.write(&format!("crc-select-{config}"));
            walk.register(&format!("crc-{config}"), crc);
        }
        walk.steps
    }
}

struct Walk {
    address: u8,
    steps: Vec<Step>,
}

impl Walk {
    fn write(&mut self, name: &str) {
        self.steps.push(Step {
            name: name.into(),
            read: None,
            reply: Reply::done(Vec::new()),
        });
    }

    fn register(&mut self, name: &str, value: u32) {
        let reply = Reply::register(self.address, value);
        self.steps.push(Step {
            name: name.into(),
            read: Some(0xC5),
            reply,
        });
    }

    fn block(&mut self, name: &str, command: u8, value: u32) {
        let reply = Reply::block(self.address, command, value);
        self.steps.push(Step {
            name: name.into(),
            read: Some(command),
            reply,
        });
    }
}

fn fitting_counter(rng: &mut Rng, draft: &Draft, rule: u8) -> (u32, u32) {
    let least = least_counter(rule, draft.k) as usize;
    if draft.kind == Kind::Legacy {
        (rng.from_to(least, 27) as u32, 0)
    } else if rng.once_in(3) {
        (28, rng.pick(&[0, 1, PRODUCTION_FLAG, 0xFFFF_FFFF]))
    } else {
        (rng.from_to(least, 28) as u32, PRODUCTION_FLAG)
    }
}

/// The flag by which a device wants files of a kind, where its counter is under 28.
pub fn flag_of(kind: Kind) -> u32 {
    match kind {
        Kind::Legacy => 0,
        Kind::Production => PRODUCTION_FLAG,
    }
}

/// Banks 0 to k - 1 show 0001, the others 0000.
pub fn right_banks(k: usize) -> u32 {
    (0..k).map(|bank| 1 << (4 * bank)).sum()
}

/// The bytes of a dry run's input.
pub fn input(settings: Settings, file: &[u8], replies: &[Reply]) -> Vec<u8> {
    let mut bytes = settings.bytes().to_vec();
    bytes.extend(behind_its_length(file));
    bytes.extend(reply_bytes(replies));
    bytes
}

/// A file behind its length.
pub fn behind_its_length(file: &[u8]) -> Vec<u8> {
    [&(file.len() as u32).to_le_bytes()[..], file].concat()
}

pub fn reply_bytes(replies: &[Reply]) -> Vec<u8> {
    let mut bytes = Vec::new();
    for reply in replies {
        bytes.extend([reply.kind, reply.bytes.len() as u8]);
        bytes.extend_from_slice(&reply.bytes);
    }
    bytes
}

pub fn replies_of(steps: &[Step]) -> Vec<Reply> {
    steps.iter().map(|step| step.reply.clone()).collect()
}
