//! The dry run: its input taken apart, and what is printed of it.

use crate::bus::{Host, Reply};
use crate::bytes::lowest_first;
use crate::refusal::Refusal;
use crate::session::{begin_with_file, run, Settings};
use crate::summary::Summary;
use crate::verdict::{Stop, DONE};

/// How many bytes the settings take, and a file's length.
const SETTINGS_BYTES: usize = 6;
const LENGTH_BYTES: usize = 4;
const ROOM_FOR_FILE: usize = 65_600;
const ROOM_FOR_REPLIES: usize = 200_000;
const CUT_SHORT: &str = "cut short\n";
const TOO_LONG: &str = "too long\n";

/// What a dry run's input holds.
pub struct DryRun<'a> {
    pub settings: Settings,
    /// What every call is lent.
    lent: &'a [u8],
    replies: Vec<Reply<'a>>,
}

/// The first bytes and those behind them, if there are so many.
fn split_at_if(bytes: &[u8], count: usize) -> Option<(&[u8], &[u8])> {
    (count <= bytes.len()).then(|| bytes.split_at(count))
}

/// Takes a dry run's input apart, or gives the only line to print.
pub fn parse_dry_run(input: &[u8]) -> Result<DryRun<'_>, &'static str> {
    let (settings, rest) = split_at_if(input, SETTINGS_BYTES).ok_or(CUT_SHORT)?;
    let (lent, reply_bytes) = parse_file(rest)?;
    if reply_bytes.len() > ROOM_FOR_REPLIES {
        return Err(TOO_LONG);
    }
    let replies = parse_replies(reply_bytes).ok_or(CUT_SHORT)?;
    Ok(DryRun {
        settings: settings_of(settings),
        lent,
        replies,
    })
}

/// A file behind its length, and what stands behind it; or the only line to print.
pub fn parse_file(input: &[u8]) -> Result<(&[u8], &[u8]), &'static str> {
    let (length, rest) = split_at_if(input, LENGTH_BYTES).ok_or(CUT_SHORT)?;
    let length = lowest_first(length) as usize;
    if length > ROOM_FOR_FILE {
        return Err(TOO_LONG);
    }
    split_at_if(rest, length).ok_or(CUT_SHORT)
}

/// The settings, in the order in which their bytes stand.
fn settings_of(bytes: &[u8]) -> Settings {
    Settings {
        step_1_wanted: bytes[0] != 0,
        poll_limit: u16::from_le_bytes([bytes[1], bytes[2]]),
        restore_cfg: bytes[3],
        rule: bytes[4],
        address: bytes[5],
    }
}

/// The replies, each a kind byte, a length byte and the bytes; none if the last is cut short.
fn parse_replies(mut rest: &[u8]) -> Option<Vec<Reply<'_>>> {
    let mut replies = Vec::new();
    while let Some((&kind, after_kind)) = rest.split_first() {
        let (&length, after_length) = after_kind.split_first()?;
        let (bytes, after_bytes) = split_at_if(after_length, usize::from(length))?;
        replies.push(Reply { kind, bytes });
        rest = after_bytes;
    }
    Some(replies)
}

pub fn replay(input: &[u8]) -> String {
    match parse_dry_run(input) {
        Ok(dry_run) => {
            let begun = begin_with_file(&dry_run.settings, dry_run.lent);
            session_of(&dry_run, begun)
        }
        Err(only_line) => only_line.to_string(),
    }
}

/// What is printed of a session that began with this summary, or whose begin was refused.
pub fn session_of(dry_run: &DryRun, begun: Result<Summary, Refusal>) -> String {
    match begun {
        Ok(summary) => begun_session(dry_run, &summary),
        Err(refusal) => {
            verdict_line(refusal.number, 0, refusal.line, refusal.place) + &count_line(0, false)
        }
    }
}

fn begun_session(dry_run: &DryRun, summary: &Summary) -> String {
    let mut host = Host::new(dry_run.settings.address, &dry_run.replies);
    let how_it_stands = match run(&mut host, &dry_run.settings, summary, dry_run.lent) {
        Ok(()) => verdict_line(DONE, 0, 0, 0),
        Err(Stop::Verdict { number, config }) => verdict_line(number, config, 0, 0),
        Err(Stop::Waiting) => "waiting\n".to_string(),
    };
    host.log + &how_it_stands + &count_line(host.count, host.burn)
}

/// Line and place are 0 unless a line of the file refused the begin.
fn verdict_line(number: u8, config: usize, line: usize, place: usize) -> String {
    format!("verdict {number} config {config} line {line} at {place}\n")
}

fn count_line(count: u32, burn: bool) -> String {
    format!("count {count} burn {}\n", u8::from(burn))
}
