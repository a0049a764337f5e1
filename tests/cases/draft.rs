//! Drafts of files.

use crate::line::{burn, header, random_write, write};
use crate::random::Rng;
use crate::text::capital;

#[derive(Clone, Copy, PartialEq)]
pub enum Kind {
    Legacy,
    Production,
}

pub const BOTH: [Kind; 2] = [Kind::Legacy, Kind::Production];

impl Kind {
    pub fn name(self) -> &'static str {
        if self == Kind::Legacy {
            "legacy"
        } else {
            "production"
        }
    }

    pub fn step(self) -> usize {
        if self == Kind::Legacy {
            337
        } else {
            363
        }
    }

    pub fn crc_place(self) -> usize {
        if self == Kind::Legacy {
            276
        } else {
            290
        }
    }

    pub fn first_bytes(self) -> [u8; 2] {
        if self == Kind::Legacy {
            [0x00, 0x01]
        } else {
            [0x06, 0x07]
        }
    }

    pub fn line_count(self, k: usize) -> usize {
        12 + self.step() * k
    }
}

/// The middle bytes of the accepted identities.
pub const PARTS: [u8; 29] = [
    0x7F, 0x80, 0x81, 0x82, 0x86, 0x87, 0x88, 0x8A, 0x8B, 0x8D, 0x8E, 0x8F, 0x90, 0x96, 0x97, 0x98,
    0x9B, 0x9C, 0x9D, 0xA2, 0xA4, 0xAE, 0xAF, 0xB1, 0xB2, 0xB3, 0xB4, 0xB5, 0xB6,
];

/// A file as the bytes of its lines. It starts out accepted; cases spoil it.
#[derive(Clone)]
pub struct Draft {
    pub kind: Kind,
    pub k: usize,
    pub lines: Vec<Vec<u8>>,
}

impl Draft {
    /// An accepted file with invented data.
    pub fn random(rng: &mut Rng, kind: Kind, k: usize) -> Draft {
        let mut lines = random_headers(rng, kind);
        while lines.len() < kind.line_count(k) - 1 {
            lines.push(random_write(rng));
        }
        lines.push(burn());
        let mut draft = Draft { kind, k, lines };
        let mut identifiers: Vec<u8> = (0..16).collect();
        rng.shuffle(&mut identifiers);
        for config in 0..k {
            draft.set_identifier(rng, config, identifiers[config]);
            draft.set(draft.crc_line(config), write(0xC6, &rng.bytes(4)));
        }
        draft
    }

    pub fn n(&self) -> usize {
        self.lines.len()
    }

    pub fn id_line(&self, config: usize) -> usize {
        self.kind.step() * config + 12
    }

    pub fn crc_line(&self, config: usize) -> usize {
        self.kind.step() * config + self.kind.crc_place()
    }

    /// The line of a number counted from 1.
    pub fn get(&self, number: usize) -> &[u8] {
        &self.lines[number - 1]
    }

    pub fn set(&mut self, number: usize, bytes: Vec<u8>) {
        self.lines[number - 1] = bytes;
    }

    pub fn set_identifier(&mut self, rng: &mut Rng, config: usize, identifier: u8) {
        let mut data = rng.bytes(4);
        data[0] = data[0] & 0xF0 | identifier;
        self.set(self.id_line(config), write(0xC6, &data));
    }

    /// A line number from 5 to n - 1 that is neither an identifier nor a CRC line.
    pub fn free_line(&self, rng: &mut Rng) -> usize {
        loop {
            let number = rng.from_to(5, self.n() - 1);
            let spot = (0..self.k).any(|c| number == self.id_line(c) || number == self.crc_line(c));
            if !spot {
                return number;
            }
        }
    }

    pub fn identity(&self) -> [u8; 4] {
        four(&self.get(1)[4..8])
    }

    pub fn identifier(&self, config: usize) -> u8 {
        self.get(self.id_line(config))[4] & 0x0F
    }

    pub fn configuration_crc(&self, config: usize) -> u32 {
        u32::from_le_bytes(four(&self.get(self.crc_line(config))[4..8]))
    }

    /// Capital digits and LF ends.
    pub fn plain(&self) -> Vec<u8> {
        let mut text = Vec::new();
        for line in &self.lines {
            text.extend(capital(line));
            text.push(b'\n');
        }
        text
    }
}

pub fn four(bytes: &[u8]) -> [u8; 4] {
    [bytes[0], bytes[1], bytes[2], bytes[3]]
}

fn random_headers(rng: &mut Rng, kind: Kind) -> Vec<Vec<u8>> {
    let mut revision = rng.bytes(4);
    revision[0] = rng.pick(&kind.first_bytes());
    let mut lines = vec![
        header(0xAD, &identity_of(rng.pick(&PARTS))),
        header(0xAE, &revision),
    ];
    for command in [0x01, 0x02] {
        let count = rng.from_to(1, 32);
        lines.push(header(command, &rng.bytes(count)));
    }
    lines
}

pub fn identity_of(middle: u8) -> [u8; 4] {
    [0x49, 0xD2, middle, 0x00]
}
