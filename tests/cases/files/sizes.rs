//! Files just at and just over the size that is allowed.

use super::Files;
use crate::draft::{Draft, BOTH};
use crate::ending::{at, At, WHOLE};
use crate::line::{line, ADDRESS, WRITE};
use crate::numbers::{CHAR, COUNT, CRC, PAIRS, SIZE};
use crate::random::Rng;

const SIZES: [usize; 7] = [65_535, 65_536, 65_537, 65_538, 65_600, 66_000, 131_072];
const LIMIT: usize = 65_536;

impl Files {
    pub(super) fn sizes(&mut self) {
        for size in SIZES {
            let short_enough = size <= LIMIT;
            let mut rng = Rng::new(self.rng.next());
            let mut put = |label: &str, number: u8, at: At, text: Vec<u8>| {
                assert_eq!(text.len(), size);
                let (number, at) = if short_enough {
                    (number, at)
                } else {
                    (SIZE, WHOLE)
                };
                self.want(number, at, &format!("size-{size}-{label}"), &text);
            };
            for kind in BOTH {
                let draft = Draft::random(&mut rng, kind, 8);
                let (good, _) = filled_up(&draft, size);
                put(&format!("good-{}", kind.name()), COUNT, WHOLE, good.clone());

                let mut first_wrong = good.clone();
                first_wrong[0] = b'G';
                put("good-but-char-at-1", CHAR, at(1, 1), first_wrong);

                let (mut last_wrong, lines) = filled_up(&draft, size);
                last_wrong[size - 2] = b'B';
                // The burn has 14 digits.
                put("good-but-crc-at-last", CRC, at(lines, 13), last_wrong);
            }
            put("zeros", PAIRS, at(1, size + 1), vec![b'0'; size]);
            let mut last_bad = vec![b'0'; size];
            last_bad[size - 1] = b'\r';
            put("zeros-but-char-at-last", CHAR, at(1, size), last_bad);
            put("line-feeds", PAIRS, at(1, 1), vec![b'\n'; size]);
            put("carriage-returns", CHAR, at(1, 1), vec![b'\r'; size]);
            let mut garbage = rng.bytes(size);
            garbage[0] = 0x80 | garbage[0];
            put("garbage", CHAR, at(1, 1), garbage);
        }
    }
}

/// A draft filled up before its last line to a size, with its number of lines. All lines are
/// good; CRs before LFs make up what whole lines leave over.
fn filled_up(draft: &Draft, size: usize) -> (Vec<u8>, usize) {
    let filler = line(WRITE, ADDRESS, 0xC7, &[0x7E, 0x00]);
    let filler_size = 2 * filler.len() + 1;
    let missing = size - draft.plain().len();
    let mut full = draft.clone();
    let last = full.lines.pop().expect("a draft has lines");
    full.lines.extend(vec![filler; missing / filler_size]);
    full.lines.push(last);

    let mut returns = missing % filler_size;
    let mut text = Vec::new();
    for byte in full.plain() {
        if byte == b'\n' && returns > 0 {
            returns -= 1;
            text.push(b'\r');
        }
        text.push(byte);
    }
    (text, full.n())
}
