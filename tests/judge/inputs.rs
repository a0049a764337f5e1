//! What an input holds, taken apart as far as it is there.

use cases::{ADDRESS_PLACE, LENGTH_BYTES, SETTINGS_BYTES};

/// A file behind its length, and what stands behind it, if the length is there.
pub fn split_file(bytes: &[u8]) -> Option<(&[u8], &[u8])> {
    let length = bytes.get(..LENGTH_BYTES)?;
    let length = length
        .iter()
        .rev()
        .fold(0, |n, &byte| n << 8 | usize::from(byte));
    let rest = &bytes[LENGTH_BYTES..];
    Some(rest.split_at(length.min(rest.len())))
}

/// The poll limit in a dry run's settings.
pub fn poll_limit(settings: &[u8]) -> usize {
    usize::from(u16::from_le_bytes([settings[1], settings[2]]))
}

/// So many of the first replies, or all where there are fewer.
pub fn first_replies(replies: &[u8], count: usize) -> &[u8] {
    let mut end = 0;
    for _ in 0..count {
        end += match replies.get(end + 1) {
            Some(&length) => 2 + usize::from(length),
            None => break,
        };
    }
    &replies[..end.min(replies.len())]
}

/// The input of a dry run that begins with a summary: the file that is checked before it is
/// `morning`.
pub struct Inputs<'a> {
    pub morning: &'a [u8],
    pub settings: &'a [u8],
    pub address: u8,
    pub lent: &'a [u8],
    pub replies: &'a [u8],
}

impl<'a> Inputs<'a> {
    pub fn of(bytes: &'a [u8]) -> Option<Inputs<'a>> {
        let (morning, dry_run) = split_file(bytes)?;
        let settings = dry_run.get(..SETTINGS_BYTES)?;
        let (lent, replies) = split_file(&dry_run[SETTINGS_BYTES..])?;
        Some(Inputs {
            morning,
            settings,
            address: settings[ADDRESS_PLACE],
            lent,
            replies,
        })
    }

    /// The input with other replies.
    pub fn with_replies(&self, replies: &[u8]) -> Vec<u8> {
        let dry_run = [self.settings, &behind_its_length(self.lent), replies].concat();
        [behind_its_length(self.morning), dry_run].concat()
    }
}

pub fn behind_its_length(file: &[u8]) -> Vec<u8> {
    [&(file.len() as u32).to_le_bytes()[..], file].concat()
}
