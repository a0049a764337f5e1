//! A lent text whose line 5 begins at another byte than the checked one's: 15 when line 5 is due.
//!
//! What stands at the place is then the end of a line, which never is a write line: its tag would be
//! the length byte, the address, the command or data with a length byte that is none.

use super::FIRST;
use crate::draft::BOTH;
use crate::line::random_write;
use crate::sessions::Sessions;
use crate::text::{capital, join, texts_of, Ends, Letters, Style};

impl Sessions {
    pub(super) fn shifted_texts(&mut self) {
        self.bytes_in_front();
        self.bytes_taken_from_the_front();
        self.lines_in_front();
        self.other_ends_of_all_lines();
        self.other_end_of_a_header_line();
    }

    fn bytes_in_front(&mut self) {
        for count in [1, 2, 3, 5, 10, 11] {
            for byte in [b'0', b'\n'] {
                let mut socket = self.small_socket();
                socket.lent.insert(0, vec![byte; count]);
                self.put_stuck(&format!("{count}-bytes-in-front"), &socket, FIRST);
            }
        }
    }

    fn bytes_taken_from_the_front(&mut self) {
        for count in [1, 2, 4, 8, 13] {
            let mut socket = self.small_socket();
            socket.lent[0].drain(..count);
            self.put_stuck(&format!("{count}-bytes-fewer"), &socket, FIRST);
        }
    }

    /// Behind a line as long as line 4, line 4 itself stands at the place, which is no write line.
    fn lines_in_front(&mut self) {
        for _ in 0..3 {
            let mut socket = self.small_socket();
            let fourth = socket.lent[3].clone();
            socket.lent.insert(0, fourth);
            self.put_stuck("line-4-in-front", &socket, FIRST);
            let mut socket = self.small_socket();
            let line = capital(&random_write(&mut self.rng));
            socket.lent.insert(0, [&line[..], b"\n"].concat());
            self.put_stuck("line-in-front", &socket, FIRST);
        }
    }

    /// The same lines with CR LF where the morning's had LF, and the other way round.
    fn other_ends_of_all_lines(&mut self) {
        for kind in BOTH {
            for (ends, other) in [(Ends::Lf, Ends::CrLf), (Ends::CrLf, Ends::Lf)] {
                let style = |ends| Style {
                    letters: Letters::Capital,
                    ends,
                    last_end: true,
                };
                let mut socket = self.socket_in(style(ends), kind, 1);
                let texts = texts_of(socket.draft());
                socket.lent = vec![join(&mut self.rng, &texts, style(other))];
                self.put_stuck(&format!("lent-{}", style(other).name()), &socket, FIRST);
            }
        }
    }

    fn other_end_of_a_header_line(&mut self) {
        for (ends, other) in [(Ends::Lf, &b"\r\n"[..]), (Ends::CrLf, b"\n")] {
            for number in 1..FIRST {
                let mut socket = self.even_socket(ends);
                let text = capital(socket.draft().get(number));
                socket.lent[number - 1] = [&text[..], other].concat();
                self.put_stuck(&format!("other-end-of-{number}"), &socket, FIRST);
            }
        }
    }
}
