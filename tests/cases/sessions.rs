//! Case sessions: inputs of dry runs.
//!
//! A label begins with `want24` (verdict 24, or a begin that 14 or the whole file's number refuses),
//! `want31n2` (31 with N 2), `want5at7p13` (a begin refused with number 5, line 7 and place 13),
//! `waiting`, `cutshort`, `toolong`, or `open` where the answer is not known from the making of the
//! case.

pub(crate) mod addresses;
mod done;
mod going_on;
pub(crate) mod inputs;
mod judged;
mod random;
pub(crate) mod refused;
pub(crate) mod reply_faults;
mod written;

use crate::device::{input, replies_of, Device, Reply, Settings, Step, RULES};
use crate::draft::{Draft, Kind};
use crate::line::{header, ADDRESS};
use crate::list::{Case, List};
use crate::random::Rng;
use crate::text::{render, Style};

const LIMITS: [u16; 4] = [1, 2, 7, 10_000];
const RESERVED: [u8; 6] = [0xC5, 0xC6, 0xC7, 0xE7, 0xAD, 0xAE];

pub struct Sessions {
    pub rng: Rng,
    list: List,
}

/// All case sessions.
pub fn sessions(seed: u64) -> Vec<Case> {
    let mut sessions = Sessions::new(seed);
    sessions.done();
    sessions.refused_settings();
    sessions.refused_files();
    sessions.reply_faults();
    sessions.device_cases();
    sessions.running_out();
    sessions.past_the_verdict();
    sessions.input_cases();
    sessions.random_sessions();
    sessions.addresses();
    sessions.cases()
}

/// A session that would be done, before a case spoils it.
#[derive(Clone)]
pub struct Session {
    pub draft: Draft,
    pub settings: Settings,
    pub device: Device,
}

impl Session {
    /// With a device of this counter and this flag.
    fn counting(mut self, counter: u32, flag: u32) -> Session {
        self.device.counter = counter;
        self.device.flag = flag;
        self
    }

    /// With a device at this address (document 02, R-2).
    pub fn at(mut self, address: u8) -> Session {
        self.settings.address = address;
        self
    }

    pub fn steps(&self) -> Vec<Step> {
        self.device.walk(&self.draft, self.settings)
    }

    pub fn replies(&self) -> Vec<Reply> {
        replies_of(&self.steps())
    }
}

impl Sessions {
    /// A generator with an empty list.
    pub fn new(seed: u64) -> Sessions {
        Sessions {
            rng: Rng::new(seed),
            list: List::default(),
        }
    }

    pub fn cases(self) -> Vec<Case> {
        self.list.cases()
    }

    /// A session under either house rule, at C0 as on the page.
    pub fn session(&mut self, kind: Kind, k: usize) -> Session {
        let rule = self.rng.pick(&RULES);
        self.session_under(rule, kind, k)
    }

    /// A session under this house rule (document 02, R-13), at C0.
    pub fn session_under(&mut self, rule: u8, kind: Kind, k: usize) -> Session {
        let mut draft = Draft::random(&mut self.rng, kind, k);
        draft.set(3, header(0x01, &self.rng.bytes(3)));
        draft.set(4, header(0x02, &self.rng.bytes(1)));
        let device = Device::fitting(&mut self.rng, &draft, rule);
        let step_1 = self.rng.pick(&[0, 0, 1, 1, 2, 0x80, 0xFF]);
        let poll_limit = self.rng.pick(&LIMITS);
        let restore_cfg = self.restore_cfg();
        Session {
            draft,
            settings: Settings {
                step_1,
                poll_limit,
                restore_cfg,
                rule,
                address: ADDRESS,
            },
            device,
        }
    }

    /// A session with one configuration of either kind.
    pub fn small_session(&mut self) -> Session {
        let kind = self.rng.kind();
        self.session(kind, 1)
    }

    fn restore_cfg(&mut self) -> u8 {
        loop {
            let code = if self.rng.once_in(2) {
                0xF2
            } else {
                self.rng.byte()
            };
            if !RESERVED.contains(&code) {
                return code;
            }
        }
    }

    pub fn file(&mut self, draft: &Draft) -> Vec<u8> {
        let style = Style::random(&mut self.rng);
        render(&mut self.rng, draft, style)
    }

    pub fn put_bytes(&mut self, label: &str, bytes: &[u8]) {
        self.list.put(label, bytes);
    }

    /// A session with the replies of its own walk.
    pub fn put(&mut self, label: &str, session: &Session) {
        self.put_replies(label, session, &session.replies());
    }

    pub fn put_replies(&mut self, label: &str, session: &Session, replies: &[Reply]) {
        let file = self.file(&session.draft);
        self.put_bytes(label, &input(session.settings, &file, replies));
    }

    /// What stands after the reply that ends a session: the rest, nothing, or anything.
    pub fn with_any_tail(&mut self, replies: &mut Vec<Reply>, ending: usize) {
        match self.rng.below(3) {
            0 => replies.truncate(ending + 1),
            1 => {}
            _ => {
                replies.truncate(ending + 1);
                for _ in 0..self.rng.from_to(1, 5) {
                    replies.push(Reply::random(&mut self.rng));
                }
            }
        }
    }
}

impl Sessions {
    fn device_cases(&mut self) {
        self.page_examples();
        self.counters_and_flags();
        self.identities();
        self.revisions();
        self.places();
        self.kept_places();
        self.faults_together();
        self.polls();
        self.statuses();
        self.banks();
        self.mismatches();
    }

    fn put_device(&mut self, label: &str, kind: Kind, k: usize, change: impl FnOnce(&mut Session)) {
        let mut session = self.session(kind, k);
        change(&mut session);
        self.put(label, &session);
    }
}
