//! A lent text with a line that cannot go out, or that ends too early: 15 when that line is due.

use super::{Socket, FIRST};
use crate::line::{burn, header, random_write, write, BURN};
use crate::numbers::{CHAR, CRC, FORM, LENGTH, PAIRS};
use crate::sessions::Sessions;
use crate::spoil::{broken_from, spoiled, FIELDS};
use crate::text::capital;

impl Sessions {
    pub(super) fn spoiled_texts(&mut self) {
        self.cut_texts();
        self.texts_without_lines();
        self.faulty_lines();
        self.lines_of_other_rows();
        self.early_and_missing_burns();
        self.fewer_and_more_lines();
    }

    /// Cut inside a line, before it, and behind its digits: a last line may lack its end.
    fn cut_texts(&mut self) {
        for turn in 0..5 {
            let whole = self.small_socket();
            let number = self.some_lines(&whole)[turn];
            let digits = capital(whole.draft().get(number));
            let inside = self.rng.from_to(1, digits.len() - 1);
            for (label, count, stuck) in [
                ("cut-inside", inside, number),
                ("cut-before", 0, number),
                ("cut-one-digit-less", digits.len() - 1, number),
                ("cut-behind-digits", digits.len(), number + 1),
            ] {
                let mut socket = self.lent_before(&whole, number);
                socket.lent.push(digits[..count].to_vec());
                if stuck <= socket.n() {
                    self.put_stuck(label, &socket, stuck);
                } else {
                    self.put_socket("want0-cut-behind-digits", &socket);
                }
            }
            let mut socket = self.lent_before(&whole, number);
            socket.lent.push([&digits[..], b"\r"].concat());
            self.put_stuck("cut-behind-cr", &socket, number);
        }
    }

    /// The same socket with the lines before the one of this number.
    fn lent_before(&self, whole: &Socket, number: usize) -> Socket {
        Socket {
            session: whole.session.clone(),
            morning: whole.morning.clone(),
            lent: whole.lent[..number - 1].to_vec(),
        }
    }

    fn texts_without_lines(&mut self) {
        for count in 0..=3 {
            let mut socket = self.small_socket();
            socket.lent.truncate(count);
            self.put_stuck(&format!("lent-{count}-lines"), &socket, FIRST);
        }
        for (label, byte) in [("line-feeds", b'\n'), ("zeros", b'0'), ("crs", b'\r')] {
            let mut socket = self.small_socket();
            socket.lent = vec![vec![byte; socket.morning.len()]];
            self.put_stuck(&format!("lent-{label}"), &socket, FIRST);
        }
    }

    /// Each number from 2 to 6, and FORM by each field.
    fn faulty_lines(&mut self) {
        for turn in 0..5 {
            for fault in [CHAR, PAIRS, LENGTH, CRC, FORM] {
                let mut socket = self.small_socket();
                let number = self.some_lines(&socket)[turn];
                let good = socket.draft().get(number).to_vec();
                let (_, digits) = spoiled(&mut self.rng, number, &good, &[fault]);
                socket.lend(number, &digits);
                self.put_stuck(&format!("fault-{fault}"), &socket, number);
            }
            for field in FIELDS {
                let mut socket = self.small_socket();
                let number = self.some_lines(&socket)[turn];
                let good = socket.draft().get(number).to_vec();
                let wrong = broken_from(&mut self.rng, number, &good, field);
                socket.lend(number, &capital(&wrong));
                self.put_stuck(&format!("form-at-{}", field.place()), &socket, number);
            }
        }
    }

    /// Lines that stand elsewhere in a good file, and empty ones.
    fn lines_of_other_rows(&mut self) {
        for other in 0..=4 {
            let mut socket = self.small_socket();
            let lines = self.some_lines(&socket);
            let number = self.rng.pick(&lines);
            let text = match other {
                0 => Vec::new(),
                _ => capital(socket.draft().get(other)),
            };
            socket.lend(number, &text);
            self.put_stuck(&format!("line-{other}-there"), &socket, number);
        }
        let mut socket = self.small_socket();
        socket.lend(FIRST, &capital(&header(0xC7, &[0x7E, 0x00])));
        self.put_stuck("tag-of-a-header", &socket, FIRST);
    }

    fn early_and_missing_burns(&mut self) {
        for turn in 0..4 {
            let mut socket = self.small_socket();
            let number = self.some_lines(&socket)[turn];
            socket.lend(number, &capital(&burn()));
            self.put_stuck("early-burn", &socket, number);
        }
        let (command, data) = BURN;
        let lasts = [
            ("c7", write(0xC7, &data)),
            ("e7-00-08", write(command, &[0x00, 0x08])),
            ("e7-08-01", write(command, &[0x08, 0x01])),
            ("any", random_write(&mut self.rng)),
        ];
        for (label, last) in lasts {
            let mut socket = self.small_socket();
            let n = socket.n();
            socket.lend(n, &capital(&last));
            self.put_stuck(&format!("no-burn-{label}"), &socket, n);
            // With the burn behind it, where no line is any more.
            socket.lent[n - 1] = [&capital(&last)[..], b"\n"].concat();
            socket.lent.push(capital(&burn()));
            self.put_stuck(&format!("late-burn-{label}"), &socket, n);
        }
    }

    /// A line taken out brings the burn too early, one put in too late. Two that change places are
    /// nothing to a session.
    fn fewer_and_more_lines(&mut self) {
        for _ in 0..3 {
            let mut socket = self.small_socket();
            let n = socket.n();
            let (number, other) = (
                self.rng.from_to(FIRST, n - 1),
                self.rng.from_to(FIRST, n - 1),
            );
            let piece = socket.lent[number - 1].clone();
            socket.lent.swap(number - 1, other - 1);
            self.put_socket("want0-two-lines-swapped", &socket);
            socket.lent.insert(other - 1, piece);
            self.put_stuck("one-line-more", &socket, n);

            let mut socket = self.small_socket();
            let n = socket.n();
            socket.lent.remove(number.min(n - 1) - 1);
            self.put_stuck("one-line-fewer", &socket, n - 1);
        }
    }
}
