//! The file summary (request R-3): what a check in the morning keeps of a file, and what a session
//! begins with at the socket.

use crate::file::{check_file, Image};
use crate::kind::Kind;
use crate::lines::place_of_line;
use crate::refusal::Refusal;

/// The first line that is written to the device.
pub const FIRST_WRITE_LINE: usize = 5;

/// "kind, identity, n, k, place of line 5, identifiers, CRCs".
pub struct Summary {
    pub kind: Kind,
    pub identity: u32,
    pub lines: usize,
    pub configs: usize,
    /// In bytes of the file, from 0.
    pub line_5: usize,
    pub identifiers: Vec<u8>,
    pub crcs: Vec<u32>,
}

/// "checking gives a file summary"; where the file is refused, its number, line and place.
pub fn check(text: &[u8]) -> Result<Summary, Refusal> {
    check_file(text).map(|image| Summary::of(&image, text))
}

impl Summary {
    fn of(image: &Image, text: &[u8]) -> Summary {
        let configs = 0..image.configs;
        Summary {
            kind: image.kind,
            identity: image.identity(),
            lines: image.lines.len(),
            configs: image.configs,
            line_5: place_of_line(text, FIRST_WRITE_LINE),
            identifiers: configs.clone().map(|n| image.identifier(n)).collect(),
            crcs: configs.map(|n| image.configuration_crc(n)).collect(),
        }
    }

    /// "A refused check hands back a summary of zeros".
    pub fn of_zeros() -> Summary {
        Summary {
            kind: Kind::Legacy,
            identity: 0,
            lines: 0,
            configs: 0,
            line_5: 0,
            identifiers: Vec::new(),
            crcs: Vec::new(),
        }
    }

    /// Whether a begin takes it: k is 1 to 8, n is 12 + s x k, and no identifier is above 15.
    pub fn stands(&self) -> bool {
        self.kind.configurations(self.lines) == Some(self.configs)
            && self.identifiers.iter().all(|&identifier| identifier <= 15)
    }
}
