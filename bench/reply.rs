//! One reply in the loop of write lines: the proved session, by an entry for measuring, against a plain one in Rust that does the
//! same work for each reply: it takes the reply from the input, looks at the state it holds, judges the reply, reads and checks the
//! line that is due, and makes the request, with the address in use and its own PEC. Both start with line 5 out, and the time until
//! then is taken off: in the proved one it is spent on the input, the check of the file and the replies of step 2.
use crate::plain::{nibble, REMAINDERS};
use crate::times::{black_box, least, Row};

#[link(name = "measured", kind = "static")]
extern "C" {
    pub fn measured_replies(input: *const u8, length: usize, replies: u32) -> u32;
}

/// The lines of the file; the replies of step 2; and those behind line 5.
const LINES: u32 = 2916;
const OPENING: u32 = 6;
const REPLIES: u32 = LINES - 5;
pub const ALL: u32 = OPENING + REPLIES;
/// The house rule of both sessions, and their address, another than the file's lines say.
const RULE: u8 = 1;
const ADDRESS: u8 = 0xC2;

fn pec_of(bytes: &[u8]) -> u8 {
    bytes.iter().fold(0, |crc, byte| REMAINDERS[(crc ^ byte) as usize])
}

/// The reply to a read, as it stands in a dry run: done, its length, its bytes and their PEC.
fn told(command: u8, said: &[u8]) -> Vec<u8> {
    let pec = pec_of(&[&[ADDRESS, command, ADDRESS + 1], said].concat());
    [&[1, said.len() as u8 + 1], said, &[pec]].concat()
}

/// The dry run of an accepted production file (crates/dryrun/src/parts.rt): step 1 not wanted, poll limit 1, RESTORE_CFG F2, house
/// rule 1, address C2; the file; step 2 of a new device that fits it; and an acknowledgement for every line but the last.
pub fn dry_run(text: &[u8]) -> Vec<u8> {
    let digit = |at: usize| nibble(text[at]).expect("a digit of line 1");
    let [a, b, c, d] = [14, 12, 10, 8].map(|at| 16 * digit(at) + digit(at + 1));
    let acknowledged = [1u8, 0];
    let mut input = vec![0, 1, 0, 0xF2, RULE, ADDRESS];
    input.extend((text.len() as u32).to_le_bytes());
    input.extend(text);
    input.extend(acknowledged);
    input.extend(told(0xC5, &[28, 0, 0, 0]));
    input.extend(told(0xAD, &[4, a, b, c, d]));
    input.extend(acknowledged);
    input.extend(told(0xC5, &[0, 0, 0, 0]));
    input.extend(told(0xAE, &[4, 0, 0, 0, 6]));
    input.extend(acknowledged.repeat(REPLIES as usize));
    input
}

struct Held {
    lines: u32,
    configs: u32,
    limit: u32,
    rule: u8,
    address: u8,
    polls: u32,
    config: u32,
    ids: [u8; 8],
    line: u32,
    place: usize,
    sent: u32,
    burned: bool,
}

struct Request {
    bytes: [u8; 8],
    used: u8,
    reads: bool,
}

/// The bytes of the write line at a place, how many there are, and the place behind it. The line says C0 at any address in use.
fn due(text: &[u8], place: usize) -> Option<([u8; 10], usize, usize)> {
    let rest = text.get(place..)?;
    if rest.is_empty() {
        return None;
    }
    let length = rest.iter().position(|&byte| byte == b'\n');
    let line = &rest[..length.unwrap_or(rest.len())];
    let line = if length.is_some() { line.strip_suffix(b"\r").unwrap_or(line) } else { line };
    if line.len() % 2 != 0 || line.len() < 10 || line.len() > 20 {
        return None;
    }
    let mut bytes = [0; 10];
    for (byte, pair) in bytes.iter_mut().zip(line.chunks_exact(2)) {
        *byte = 16 * nibble(pair[0])? + nibble(pair[1])?;
    }
    let m = line.len() / 2;
    let crc = pec_of(&bytes[2..m - 1]);
    let form = bytes[0] == 0 && bytes[2] == 0xC0 && matches!((bytes[3], m - 5), (0xC7 | 0xE7, 2) | (0xC5 | 0xC6, 4));
    (bytes[1] as usize + 2 == m && crc == bytes[m - 1] && form).then_some((bytes, m, place + length.map_or(rest.len(), |n| n + 1)))
}

/// The write of a command and its data at an address, with its own PEC.
fn written(address: u8, said: &[u8]) -> Request {
    let last = 1 + said.len();
    let mut bytes = [0; 8];
    bytes[0] = address;
    bytes[1..last].copy_from_slice(said);
    bytes[last] = pec_of(&bytes[..last]);
    Request { bytes, used: last as u8 + 1, reads: false }
}

#[inline(never)]
fn reply(held: &mut Held, text: &[u8], kind: u8, bytes: &[u8]) -> Option<Request> {
    let sound = (1..=10_000).contains(&held.limit)
        && (1..=2).contains(&held.rule)
        && (0x10..=0xEE).contains(&held.address)
        && held.address % 2 == 0
        && (1..=8).contains(&held.configs)
        && held.lines == 12 + 363 * held.configs
        && (5..=held.lines).contains(&held.line)
        && held.config < held.configs
        && held.polls < held.limit
        && held.ids[..held.configs as usize].iter().all(|&id| id <= 15)
        && held.sent <= held.lines + held.limit + 3 * held.configs + 9;
    if !sound || kind != 1 || !bytes.is_empty() || held.line >= held.lines {
        return None;
    }
    let (line, m, next) = due(text, held.place)?;
    let burn = line[3] == 0xE7 && line[4] == 8 && line[5] == 0;
    if burn != (held.line + 1 == held.lines) {
        return None;
    }
    let request = written(held.address, &line[3..m - 1]);
    held.line += 1;
    held.place = next;
    held.sent += 1;
    held.burned |= burn;
    Some(request)
}

/// Kind and bytes of the reply at a place of the input, and the place behind it.
fn reply_at(input: &[u8], at: usize) -> Option<(u8, &[u8], usize)> {
    let start = at + 2;
    let end = start + *input.get(at + 1)? as usize;
    Some((input[at], input.get(start..end)?, end))
}

fn plain(input: &[u8], text: &[u8], replies: u32) -> u32 {
    let place = text.iter().enumerate().filter(|(_, &byte)| byte == b'\n').nth(4).map_or(0, |(at, _)| at + 1);
    let ids = [0, 1, 2, 3, 4, 5, 6, 7];
    let mut held = Held {
        lines: LINES,
        configs: 8,
        limit: 1,
        rule: RULE,
        address: ADDRESS,
        polls: 0,
        config: 0,
        ids,
        line: 5,
        place,
        sent: 7,
        burned: false,
    };
    let mut at = input.len() - 2 * REPLIES as usize;
    for _ in 0..replies {
        if let Some((kind, bytes, end)) = reply_at(black_box(input), at) {
            if let Some(request) = reply(black_box(&mut held), black_box(text), kind, bytes) {
                black_box((request.bytes, request.used, request.reads));
            }
            at = end;
        }
    }
    held.sent
}

pub fn rows(text: &[u8]) -> Vec<Row> {
    let input = dry_run(text);
    let proved = |n| unsafe { measured_replies(black_box(&input).as_ptr(), input.len(), n) };
    let plain = |n| plain(&input, text, n);
    assert_eq!((proved(OPENING), proved(ALL), plain(0), plain(REPLIES)), (7, 7 + REPLIES, 7, 7 + REPLIES));
    let [a, b, c, d] = least(3, [&|| proved(ALL), &|| proved(OPENING), &|| plain(REPLIES), &|| plain(0)]);
    let each = f64::from(REPLIES);
    vec![Row { what: "reply to a write line", ours: (a - b) / each, plain: (c - d) / each, goal: Some(1.5) }]
}
