//! Random changes of a case: of a file's text, and of a dry run's input, also of one that begins with
//! a summary.

use cases::line::{line, pec};
use cases::random::Rng;
use cases::random_address;
use cases::text::capital;
use cases::{ADDRESS_PLACE, HEADER_BYTES, RULE_PLACE, SETTINGS_BYTES};

use crate::inputs::{behind_its_length, first_replies, split_file, Inputs};

/// No text gets longer: far more than a file may have, and less than the C side has room for.
const LONGEST: usize = 200_000;

/// The text with one to three changes.
pub fn changed_text(rng: &mut Rng, text: &[u8], other: &[u8]) -> Vec<u8> {
    let mut text = text.to_vec();
    for _ in 0..rng.from_to(1, 3) {
        change_once(rng, &mut text, other);
    }
    text.truncate(LONGEST);
    text
}

fn change_once(rng: &mut Rng, text: &mut Vec<u8>, other: &[u8]) {
    if text.is_empty() {
        text.push(rng.byte());
    }
    let place = rng.below(text.len());
    match rng.below(18) {
        0 => text[place] ^= 1 << rng.below(8),
        1 => text[place] = rng.byte(),
        2 => text[place] = rng.pick(b"0123456789ABCDEFabcdef"),
        3 => text.truncate(place),
        4 => {
            let end = (place + rng.from_to(1, 40)).min(text.len());
            text.drain(place..end);
        }
        5 => joined_lines(rng, text),
        6 => swapped_lines(rng, text),
        7 => doubled_or_removed_line(rng, text),
        8 => other_ends(text),
        9 => small_letters(rng, text),
        10 => text.insert(place, rng.pick(b"\r\n 0Gg")),
        11 => spliced(rng, text, other),
        12 => no_digits(rng, text),
        13..=15 => reformed(rng, text),
        _ => resealed(rng, text),
    }
}

/// Where the lines of a text begin and end, their LF not counted.
fn spans(text: &[u8]) -> Vec<(usize, usize)> {
    let mut spans = Vec::new();
    let mut start = 0;
    for (place, &byte) in text.iter().enumerate() {
        if byte == b'\n' {
            spans.push((start, place));
            start = place + 1;
        }
    }
    if start < text.len() || spans.is_empty() {
        spans.push((start, text.len()));
    }
    spans
}

/// One LF taken out, so that two lines are one.
fn joined_lines(rng: &mut Rng, text: &mut Vec<u8>) {
    let (_, end) = rng.pick(&spans(text));
    if end < text.len() {
        text.remove(end);
    }
}

fn swapped_lines(rng: &mut Rng, text: &mut Vec<u8>) {
    let spans = spans(text);
    let (first, second) = (rng.below(spans.len()), rng.below(spans.len()));
    let (low, high) = (first.min(second), first.max(second));
    if low == high {
        return;
    }
    let ((a, b), (c, d)) = (spans[low], spans[high]);
    *text = [
        &text[..a],
        &text[c..d],
        &text[b..c],
        &text[a..b],
        &text[d..],
    ]
    .concat();
}

fn doubled_or_removed_line(rng: &mut Rng, text: &mut Vec<u8>) {
    let (start, end) = rng.pick(&spans(text));
    let end = (end + 1).min(text.len());
    let line = text[start..end].to_vec();
    if rng.once_in(2) {
        text.drain(start..end);
    } else {
        text.splice(start..start, line);
    }
}

/// CR LF everywhere, or, where there is a CR, none.
fn other_ends(text: &mut Vec<u8>) {
    if text.contains(&b'\r') {
        text.retain(|&byte| byte != b'\r');
    } else {
        *text = text
            .iter()
            .flat_map(|&byte| {
                if byte == b'\n' {
                    vec![b'\r', b'\n']
                } else {
                    vec![byte]
                }
            })
            .collect();
    }
}

fn small_letters(rng: &mut Rng, text: &mut [u8]) {
    let (start, end) = if rng.once_in(2) {
        (0, text.len())
    } else {
        rng.pick(&spans(text))
    };
    text[start..end].make_ascii_lowercase();
}

/// The beginning of this text and the end of another.
fn spliced(rng: &mut Rng, text: &mut Vec<u8>, other: &[u8]) {
    let (start, _) = rng.pick(&spans(text));
    let (from, _) = rng.pick(&spans(other));
    text.truncate(start);
    text.extend_from_slice(&other[from..]);
}

/// Where a line lies, its end not counted: one of the header, one that has a use of its own, or any.
fn some_span(rng: &mut Rng, text: &[u8]) -> (usize, usize) {
    let spans = spans(text);
    let last = spans.len() - 1;
    let number = match rng.below(3) {
        0 => rng.below(4),
        1 => rng.pick(&[4, 11, 275, 289, last]),
        _ => rng.below(spans.len()),
    };
    let (start, end) = spans[number.min(last)];
    if end > start && text[end - 1] == b'\r' {
        (start, end - 1)
    } else {
        (start, end)
    }
}

/// One to three bytes of a line that are no digits, so that the first of them is the place.
fn no_digits(rng: &mut Rng, text: &mut [u8]) {
    let (start, end) = some_span(rng, text);
    if start == end {
        return;
    }
    for _ in 0..rng.from_to(1, 3) {
        text[rng.from_to(start, end - 1)] = rng.pick(b"Gg /:@`\r\0\x80");
    }
}

/// One or two fields of the table changed in a line, its length byte and CRC made right again, so
/// that the fault is the table's.
fn reformed(rng: &mut Rng, text: &mut Vec<u8>) {
    let (start, end) = some_span(rng, text);
    let bytes = match decoded(&text[start..end]) {
        Some(bytes) if bytes.len() >= 5 => bytes,
        _ => return,
    };
    let (mut tag, mut address, mut command) = (bytes[0], bytes[2], bytes[3]);
    let mut data = bytes[4..bytes.len() - 1].to_vec();
    for _ in 0..rng.from_to(1, 2) {
        match rng.below(4) {
            0 => tag = rng.pick(&[0x00, 0x49, 0x48, 0xC0]),
            1 => address = rng.pick(&[0xC0, 0xC1, 0x40, 0x00]),
            2 => command = rng.pick(&[0x01, 0x02, 0xAD, 0xAE, 0xC4, 0xC5, 0xC6, 0xC7, 0xE7]),
            _ => data.resize(rng.pick(&[0, 1, 2, 3, 4, 5, 31, 32, 33]), 0x5A),
        }
    }
    text.splice(start..end, capital(&line(tag, address, command, &data)));
}

/// One byte of a line changed and its CRC made right again, so that the fault lies deeper.
fn resealed(rng: &mut Rng, text: &mut Vec<u8>) {
    let (start, end) = some_span(rng, text);
    let mut bytes = match decoded(&text[start..end]) {
        Some(bytes) if bytes.len() >= 5 => bytes,
        _ => return,
    };
    let last = bytes.len() - 1;
    let place = rng.below(last);
    bytes[place] = match rng.below(3) {
        0 => rng.byte(),
        1 => bytes[place] ^ (1 << rng.below(8)),
        _ => rng.pick(&[0x00, 0x08, 0x49, 0xAD, 0xAE, 0xC0, 0xC5, 0xC6, 0xC7, 0xE7]),
    };
    bytes[last] = pec(&bytes[2..last]);
    text.splice(start..end, capital(&bytes));
}

/// The bytes that hex digits stand for.
pub fn decoded(digits: &[u8]) -> Option<Vec<u8>> {
    let digits = std::str::from_utf8(digits).ok()?;
    if digits.len() % 2 == 1 || !digits.is_ascii() {
        return None;
    }
    (0..digits.len() / 2)
        .map(|place| u8::from_str_radix(&digits[2 * place..2 * place + 2], 16).ok())
        .collect()
}

/// A dry run's input with a change: of the settings, of the file in it, or of the replies.
pub fn changed_input(rng: &mut Rng, input: &[u8]) -> Vec<u8> {
    if input.len() <= HEADER_BYTES {
        return input.to_vec();
    }
    let (settings, rest) = input.split_at(SETTINGS_BYTES);
    let (file, replies) = split_file(rest).unwrap_or((rest, &[]));
    let (mut settings, mut file, mut replies) =
        (settings.to_vec(), file.to_vec(), replies.to_vec());
    match rng.below(10) {
        0 => {
            let place = rng.below(SETTINGS_BYTES);
            settings[place] = rng.byte();
        }
        1 => file = changed_text(rng, &file, input),
        2 => replies.truncate(rng.below(replies.len() + 1)),
        // Mostly an allowed rule, so that the counter is judged by the other one.
        3 => settings[RULE_PLACE] = rng.pick(&[0, 1, 1, 2, 2, 3]),
        // Mostly an allowed address, so that the replies' PECs are judged by it.
        4 => settings[ADDRESS_PLACE] = random_address(rng),
        _ => change_reply(rng, &mut replies),
    }
    [settings, behind_its_length(&file), replies].concat()
}

/// The input of a dry run that begins with a summary, with a change: of one of the two texts, so that
/// they part, of a reply, which comes twice, or as any dry run's.
pub fn changed_socket(rng: &mut Rng, input: &[u8]) -> Vec<u8> {
    let (inputs, dry_run) = match (Inputs::of(input), split_file(input)) {
        (Some(inputs), Some((_, dry_run))) => (inputs, dry_run),
        _ => return input.to_vec(),
    };
    let (mut morning, mut lent) = (inputs.morning.to_vec(), inputs.lent.to_vec());
    let mut replies = inputs.replies.to_vec();
    match rng.below(8) {
        0 => morning = changed_text(rng, &morning, &lent),
        1 | 2 => lent = changed_text(rng, &lent, &morning),
        3 => lent = morning.clone(),
        4 => double_reply(rng, &mut replies),
        _ => {
            let changed = changed_input(rng, dry_run);
            return [behind_its_length(&morning), changed].concat();
        }
    }
    let dry_run = [inputs.settings, &behind_its_length(&lent), &replies].concat();
    [behind_its_length(&morning), dry_run].concat()
}

/// One of the replies comes once more behind itself.
fn double_reply(rng: &mut Rng, replies: &mut Vec<u8>) {
    let count = rng.below(40);
    let start = first_replies(replies, count).len();
    let end = first_replies(replies, count + 1).len();
    let reply = replies[start..end].to_vec();
    replies.splice(end..end, reply);
}

/// A byte of the replies changed, or one more among them.
fn change_reply(rng: &mut Rng, replies: &mut Vec<u8>) {
    if replies.is_empty() {
        return;
    }
    // The first replies are those that are judged; the others answer the write lines.
    let bound = if rng.once_in(2) {
        replies.len().min(48)
    } else {
        replies.len()
    };
    let place = rng.below(bound);
    match rng.below(3) {
        0 => replies[place] = rng.byte(),
        1 => replies[place] ^= 1 << rng.below(8),
        _ => replies.insert(place, rng.pick(&[0, 1, 2, 5, 6])),
    }
}
