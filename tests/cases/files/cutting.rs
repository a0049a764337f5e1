//! The cutting of a text into lines.

use super::{Files, PLAIN};
use crate::draft::{Draft, BOTH};
use crate::ending::{at, At, WHOLE};
use crate::line::header;
use crate::numbers::{CHAR, COUNT, CRC, LENGTH, PAIRS};
use crate::text::{capital, join, texts_of};

impl Files {
    pub(super) fn tiny_texts(&mut self) {
        let cases: [(u8, At, &str, &[u8]); 17] = [
            (COUNT, WHOLE, "nothing", b""),
            (PAIRS, at(1, 1), "lf", b"\n"),
            (PAIRS, at(1, 1), "lf-lf", b"\n\n"),
            (PAIRS, at(1, 1), "cr-lf", b"\r\n"),
            (CHAR, at(1, 1), "cr", b"\r"),
            (CHAR, at(1, 1), "cr-cr", b"\r\r"),
            (CHAR, at(1, 1), "cr-cr-lf", b"\r\r\n"),
            (PAIRS, at(1, 1), "lf-cr", b"\n\r"),
            (CHAR, at(1, 1), "space", b" "),
            (CHAR, at(1, 1), "nul", b"\0"),
            (PAIRS, at(1, 2), "zero", b"0"),
            (COUNT, WHOLE, "one-line-no-end", b"4907C0AD49D28100FA"),
            (COUNT, WHOLE, "one-line", b"4907C0AD49D28100FA\n"),
            (COUNT, WHOLE, "one-line-cr-lf", b"4907C0AD49D28100FA\r\n"),
            (CHAR, at(1, 19), "one-line-cr", b"4907C0AD49D28100FA\r"),
            (
                CHAR,
                at(1, 19),
                "one-line-cr-cr-lf",
                b"4907C0AD49D28100FA\r\r\n",
            ),
            (PAIRS, at(2, 1), "one-line-lf-lf", b"4907C0AD49D28100FA\n\n"),
        ];
        for (number, at, label, text) in cases {
            self.want(number, at, &format!("tiny-{label}"), text);
        }
        self.lines_of_the_page();
    }

    /// The lines of the page's twelve examples, each where the page puts it.
    fn lines_of_the_page(&mut self) {
        let top = "4907C0AD49D28100FA\n4907C0AE060000004F\n";
        let legacy_listing = format!("{top}490AC001352E342E3233334C9\n");
        self.want(
            PAIRS,
            at(3, 26),
            "page-25-digits",
            legacy_listing.as_bytes(),
        );
        let third = capital(&header(0x01, b"5.4"));
        let fourth = capital(&header(0x02, b"1"));
        let headers = [top.as_bytes(), &third, b"\n", &fourth, b"\n"].concat();
        let fifth = [
            (COUNT, WHOLE, "0005C0C77E0045"),
            (COUNT, WHOLE, "0007C0C50000000028"),
            (COUNT, WHOLE, "0007C0C68298CDE0C1"),
            (COUNT, WHOLE, "0005C0E70800DA"),
            (CRC, at(5, 13), "0005C0C77E0044"),
            (LENGTH, at(5, 3), "0006C0C77E0045"),
            (PAIRS, at(5, 1), ""),
        ];
        for (number, at, text) in fifth {
            let whole = [&headers, text.as_bytes(), b"\n"].concat();
            self.want(number, at, &format!("page-line-5-{text}"), &whole);
        }
    }

    pub(super) fn ends_of_lines(&mut self) {
        for kind in BOTH {
            for k in 1..=2 {
                let draft = self.draft(kind, k);
                self.empty_lines(&draft);
                self.text_after_the_end(&draft);
                self.bare_carriage_returns(&draft);
            }
        }
    }

    fn empty_lines(&mut self, draft: &Draft) {
        let middle = self.rng.from_to(2, draft.n());
        for (number, label) in [(1, "first"), (middle, "middle"), (draft.n(), "before-last")] {
            let mut texts = texts_of(draft);
            texts.insert(number - 1, Vec::new());
            let text = join(&mut self.rng, &texts, PLAIN);
            self.want(PAIRS, at(number, 1), &format!("empty-line-{label}"), &text);
        }
    }

    fn text_after_the_end(&mut self, draft: &Draft) {
        let after = draft.n() + 1;
        let cases: [(u8, usize, &str, &[u8]); 9] = [
            (PAIRS, 1, "lf", b"\n"),
            (PAIRS, 1, "cr-lf", b"\r\n"),
            (PAIRS, 1, "lf-lf", b"\n\n"),
            (CHAR, 1, "cr", b"\r"),
            (CHAR, 1, "space", b" "),
            (CHAR, 1, "nul", b"\0"),
            (CHAR, 1, "end-of-file-mark", b"\x1A"),
            (CHAR, 3, "digits-and-a-space", b"00 "),
            (PAIRS, 3, "digits", b"00"),
        ];
        for (number, place, label, tail) in cases {
            let text = [draft.plain(), tail.to_vec()].concat();
            let label = format!("after-the-end-{label}");
            self.want(number, at(after, place), &label, &text);
        }
        let marked = [b"\xEF\xBB\xBF".to_vec(), draft.plain()].concat();
        self.want(CHAR, at(1, 1), "byte-order-mark", &marked);
    }

    /// A CR that is no part of a line's end, after the whole text or after every line.
    fn bare_carriage_returns(&mut self, draft: &Draft) {
        let n = draft.n();
        let behind = |number: usize| at(number, 2 * draft.get(number).len() + 1);
        let plain = draft.plain();
        let at_end = [&plain[..plain.len() - 1], b"\r"].concat();
        self.want(CHAR, behind(n), "cr-at-the-very-end", &at_end);
        let only_returns: Vec<u8> = plain
            .iter()
            .map(|&byte| if byte == b'\n' { b'\r' } else { byte })
            .collect();
        self.want(CHAR, behind(1), "cr-as-only-end", &only_returns);
        let turned = String::from_utf8_lossy(&plain).replace('\n', "\n\r");
        self.want(CHAR, at(2, 1), "lf-cr-ends", turned.as_bytes());
        let number = self.rng.from_to(1, n - 1);
        self.carriage_returns_in(draft, number);
    }

    /// A CR that is no part of a line's end, in one line.
    fn carriage_returns_in(&mut self, draft: &Draft, number: usize) {
        let digits = capital(draft.get(number));
        let next = capital(draft.get(number + 1));
        let inside = self.rng.from_to(0, digits.len() - 1);
        let (before, behind) = digits.split_at(inside);
        let all = digits.len();
        let cases = [
            (
                "two-before-lf",
                all,
                [&digits, &b"\r\r\n"[..], &next].concat(),
            ),
            ("between-lines", all, [&digits, &b"\r"[..], &next].concat()),
            (
                "inside",
                inside,
                [before, b"\r", behind, b"\n", &next].concat(),
            ),
            (
                "before-space",
                all,
                [&digits, &b"\r \n"[..], &next].concat(),
            ),
        ];
        for (label, digits_before, pair) in cases {
            let mut texts = texts_of(draft);
            texts[number - 1] = pair;
            texts.remove(number);
            let text = join(&mut self.rng, &texts, PLAIN);
            let at = at(number, digits_before + 1);
            self.want(CHAR, at, &format!("cr-{label}"), &text);
        }
    }
}
