//! Lines far over the digits that are allowed, in short texts: CHAR and PAIRS at places that no good
//! line has.

use super::Files;
use crate::ending::at;
use crate::numbers::{CHAR, PAIRS};
use crate::spoil::put_no_digits;

/// Around what a line may have, what a byte and what two bytes can count, and nearly a whole file.
const COUNTS: [usize; 11] = [
    75, 76, 100, 254, 255, 256, 257, 1_000, 32_767, 32_768, 60_000,
];

impl Files {
    pub(super) fn long_lines(&mut self) {
        for count in COUNTS {
            let label = format!("long-{count}");
            self.put_long_line(&label, count, &[]);
            let inside = self.rng.from_to(2, count - 1);
            for first in [1, 74, 75, inside, count - 1, count] {
                let behind = self.rng.from_to(first, count);
                self.put_long_line(&label, count, &[behind, first]);
            }
        }
    }

    /// A line of so many digits, with bytes that are none at these places.
    fn put_long_line(&mut self, label: &str, count: usize, places: &[usize]) {
        let kind = self.rng.kind();
        let draft = self.shortened(kind, 20);
        let number = self.rng.pick(&[1, 2, 3, 4, 5, 13, 20]);
        let mut digits = vec![self.rng.pick(b"09AF"); count];
        let place = put_no_digits(&mut self.rng, &mut digits, places);
        let text = self.with_line(&draft, number, &digits);
        if places.is_empty() {
            self.want(PAIRS, at(number, count + 1), label, &text);
        } else {
            self.want(CHAR, at(number, place), label, &text);
        }
    }
}
