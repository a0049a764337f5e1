//! Too few lines, and numbers of lines that fit no k: COUNT.

use super::{Files, PLAIN};
use crate::draft::{Draft, Kind, BOTH};
use crate::ending::WHOLE;
use crate::line::{burn, header, random_write, write};
use crate::numbers::{COUNT, DEVICE, REVISION};
use crate::text::{join, texts_of};

pub(super) const BAD_REVISION: [u8; 4] = [0x05, 0x00, 0x06, 0x07];
pub(super) const BAD_IDENTITY: [u8; 4] = [0x49, 0xD2, 0x83, 0x00];

impl Files {
    /// The first lines of a file, the last of them being the burn if it is a write line.
    pub(super) fn shortened(&mut self, kind: Kind, count: usize) -> Draft {
        let mut draft = self.draft(kind, 1);
        draft.lines.truncate(count);
        if count >= 5 {
            draft.set(count, burn());
        }
        draft
    }

    pub(super) fn few_lines(&mut self) {
        for kind in BOTH {
            for count in [1, 2, 3, 4, 5, 6, 11, 12, 13, 14, 20] {
                let draft = self.shortened(kind, count);
                self.put_whole(COUNT, &format!("{count}-lines"), &draft);

                let mut both = draft.clone();
                both.set(1, header(0xAD, &BAD_IDENTITY));
                let number = if count < 13 { COUNT } else { DEVICE };
                self.put_whole(number, &format!("{count}-lines-bad-device"), &both);
                if count >= 2 {
                    both.set(2, header(0xAE, &BAD_REVISION));
                    let number = if count < 13 { COUNT } else { REVISION };
                    self.put_whole(number, &format!("{count}-lines-bad-both"), &both);
                }
            }
        }
    }

    /// One line too few or too many, with the burn still last, and other counts that fit no k.
    pub(super) fn line_counts(&mut self) {
        for kind in BOTH {
            for k in 1..=8 {
                let mut fewer = self.draft(kind, k);
                let place = fewer.free_line(&mut self.rng);
                fewer.lines.remove(place - 1);
                self.put_whole(COUNT, &format!("k{k}-one-line-fewer"), &fewer);

                let mut more = self.draft(kind, k);
                let place = more.n() - 1;
                more.lines.insert(place, random_write(&mut self.rng));
                self.put_whole(COUNT, &format!("k{k}-one-line-more"), &more);
            }
            for k in 1..=3 {
                let mut other = self.draft(kind, k);
                let other_kind = if kind == Kind::Legacy {
                    Kind::Production
                } else {
                    Kind::Legacy
                };
                let first = self.rng.pick(&other_kind.first_bytes());
                other.set(2, header(0xAE, &[first, 0, 0, 0]));
                self.put_whole(COUNT, &format!("k{k}-lines-of-the-other-kind"), &other);

                let mut without_twelve = self.draft(kind, k);
                without_twelve.lines.drain(20..32);
                self.put_whole(COUNT, &format!("k{k}-twelve-lines-fewer"), &without_twelve);
            }
        }
    }

    /// Files that end before the last configuration's identifier line or its CRC line, with the
    /// burn last: a line past the end has no number of its own (request R-9).
    pub(super) fn ends_before_spots(&mut self) {
        for kind in BOTH {
            for k in 1..=8 {
                let draft = self.draft(kind, k);
                let spots = [
                    ("identifier", draft.id_line(k - 1)),
                    ("crc", draft.crc_line(k - 1)),
                ];
                for (name, spot) in spots {
                    let mut short = draft.clone();
                    short.lines.truncate(spot - 1);
                    short.set(spot - 1, burn());
                    self.put_whole(COUNT, &format!("k{k}-ends-before-{name}-line"), &short);
                }
            }
        }
    }

    pub(super) fn counts_beyond_eight(&mut self) {
        for kind in BOTH {
            for k in [9, 10, 11] {
                let mut draft = self.draft(kind, 1);
                let last = draft.n() - 1;
                let more = kind.line_count(k) - draft.n();
                let filler = write(0xC7, &self.rng.bytes(2));
                draft.lines.splice(last..last, vec![filler; more]);
                let text = join(&mut self.rng, &texts_of(&draft), PLAIN);
                self.want(COUNT, WHOLE, &format!("{}-k{k}", kind.name()), &text);
            }
        }
    }
}
