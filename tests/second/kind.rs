//! "The whole file": the two kinds of file, and where a kind has its lines.

#[derive(Clone, Copy, PartialEq)]
pub enum Kind {
    Legacy,
    Production,
}

impl Kind {
    pub fn from_revision(first_byte: u8) -> Option<Kind> {
        match first_byte {
            0x06 | 0x07 => Some(Kind::Production),
            0x00 | 0x01 => Some(Kind::Legacy),
            _ => None,
        }
    }

    pub fn name(self) -> &'static str {
        match self {
            Kind::Legacy => "legacy",
            Kind::Production => "production",
        }
    }

    /// The step s from one configuration to the next.
    fn step(self) -> usize {
        match self {
            Kind::Legacy => 337,
            Kind::Production => 363,
        }
    }

    /// The CRC place c.
    fn crc_place(self) -> usize {
        match self {
            Kind::Legacy => 276,
            Kind::Production => 290,
        }
    }

    /// The k from 1 to 8 for which n = 12 + s x k.
    pub fn configurations(self, line_count: usize) -> Option<usize> {
        (1..=8).find(|k| line_count == 12 + self.step() * k)
    }

    pub fn identifier_line(self, config: usize) -> usize {
        self.step() * config + 12
    }

    pub fn crc_line(self, config: usize) -> usize {
        self.step() * config + self.crc_place()
    }
}
