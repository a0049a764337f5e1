//! Tidy example files with invented data, and a dry run that ends DONE for an accepted file.

use std::fs;
use std::io;
use std::path::Path;

use crate::device::{flag_of, input, replies_of, right_banks, Device, Settings};
use crate::draft::{identity_of, Draft, Kind};
use crate::line::{burn, header, write, ADDRESS};
use crate::random::Rng;

const VERSION: &[u8] = b"5.4.233";
const DAY: &[u8] = &[0x22, 0x04, 0x11, 0x00];

/// Writes the example file of a kind: production with two configurations, legacy with one.
pub fn write_example(kind: Kind, path: &Path) -> io::Result<()> {
    let draft = match kind {
        Kind::Production => example(kind, 0x81, 0x06, &[2, 3]),
        Kind::Legacy => example(kind, 0xAF, 0x01, &[0]),
    };
    fs::write(path, draft.plain())
}

/// Pairs of a register address (C7) and its value (C6), in one block for each configuration, and
/// the burn at the end.
fn example(kind: Kind, part: u8, revision: u8, identifiers: &[u8]) -> Draft {
    let k = identifiers.len();
    let mut rng = Rng::new(u64::from(part));
    let mut lines = vec![
        header(0xAD, &identity_of(part)),
        header(0xAE, &[revision, 0, 0, 0]),
        header(0x01, VERSION),
        header(0x02, DAY),
    ];
    while lines.len() < kind.line_count(k) - 1 {
        let place = (lines.len() - 4) % kind.step();
        let register = (0x0100 + place as u16 / 2).to_le_bytes();
        lines.push(if place + 1 == kind.step() {
            write(0xE7, &[0x01, 0x00])
        } else if place % 2 == 0 {
            write(0xC7, &register)
        } else {
            write(0xC6, &[rng.byte(), rng.byte() & 0x0F, 0, 0])
        });
    }
    lines.push(burn());
    let mut draft = Draft { kind, k, lines };
    for (config, &identifier) in identifiers.iter().enumerate() {
        draft.set(draft.id_line(config), write(0xC6, &[identifier, 0, 0, 0]));
        draft.set(draft.crc_line(config), write(0xC6, &rng.bytes(4)));
    }
    draft
}

/// Writes a dry run for an accepted file: step 1 wanted, poll limit 10, RESTORE_CFG F2, house rule
/// 1, address C0, two polls with bit 0 clear, and DONE.
pub fn write_session(file: &Path, out: &Path) -> io::Result<()> {
    let text = fs::read(file)?;
    let draft = draft_of(&text)
        .ok_or_else(|| io::Error::new(io::ErrorKind::InvalidData, "not an accepted file"))?;
    let settings = Settings {
        step_1: 1,
        poll_limit: 10,
        restore_cfg: 0xF2,
        rule: 1,
        address: ADDRESS,
    };
    let device = Device {
        setup: 0x0000_0124,
        counter: 20,
        identity: u32::from_be_bytes(draft.identity()),
        flag: flag_of(draft.kind),
        revision: 0x0600_0000,
        statuses: vec![0x00, 0x00, 0x01],
        banks: right_banks(draft.k),
        crcs: (0..draft.k)
            .map(|config| draft.configuration_crc(config))
            .collect(),
    };
    let replies = replies_of(&device.walk(&draft, settings));
    fs::write(out, input(settings, &text, &replies))
}

/// The lines of a text that is known to be accepted.
fn draft_of(text: &[u8]) -> Option<Draft> {
    let text = std::str::from_utf8(text).ok()?;
    let lines: Vec<Vec<u8>> = text.lines().map(bytes_of).collect::<Option<_>>()?;
    let kind = match *lines.get(1)?.get(4)? {
        0x00 | 0x01 => Kind::Legacy,
        _ => Kind::Production,
    };
    let k = lines.len().checked_sub(12)? / kind.step();
    let draft = Draft { kind, k, lines };
    let long_enough = draft.lines.iter().all(|line| line.len() >= 6);
    let spots = (0..k).flat_map(|config| [draft.id_line(config), draft.crc_line(config)]);
    let whole = spots.chain([1]).all(|number| draft.get(number).len() == 9);
    (k > 0 && long_enough && whole).then_some(draft)
}

fn bytes_of(digits: &str) -> Option<Vec<u8>> {
    let pairs = digits.as_bytes().chunks(2);
    pairs
        .map(|pair| u8::from_str_radix(std::str::from_utf8(pair).ok()?, 16).ok())
        .collect()
}
