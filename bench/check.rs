//! The proved checker, by its C entry, against two plain ones in Rust on an accepted file: a straightforward one, which cuts, tests
//! and then reads each line, and the fastest that we know, which looks every digit up in a table and reads a line while it scans it.
use crate::plain::{nibble, REMAINDERS};
use crate::times::{black_box, least, Row};

#[link(name = "loader", kind = "static")]
extern "C" {
    pub fn tehilgam_refusal(text: *const u8, length: usize) -> u8;
}

const fn digit_values() -> [u8; 256] {
    let mut table = [16; 256];
    let mut d = 0;
    while d < 16 {
        table[b"0123456789ABCDEF"[d] as usize] = d as u8;
        table[b"0123456789abcdef"[d] as usize] = d as u8;
        d += 1;
    }
    table
}

static DIGITS: [u8; 256] = digit_values();

const PARTS: [u8; 29] = [
    0x81, 0x90, 0xAF, 0xAE, 0x8F, 0x8E, 0xB4, 0xB2, 0xB3, 0xB5, 0xB6, 0x82, 0x97, 0x98, 0x96, 0x88, 0x8A, 0x9B, 0x9C, 0x8B, 0x8D, 0xA4,
    0xA2, 0x9D, 0x7F, 0xB1, 0x80, 0x86, 0x87,
];

struct Line {
    command: u8,
    data: [u8; 4],
}

fn fits(number: usize, tag: u8, address: u8, command: u8, count: usize) -> bool {
    address == 0xC0
        && match number {
            1 => tag == 0x49 && command == 0xAD && count == 4,
            2 => tag == 0x49 && command == 0xAE && count == 4,
            3 => tag == 0x49 && command == 0x01 && (1..=32).contains(&count),
            4 => tag == 0x49 && command == 0x02 && (1..=32).contains(&count),
            _ => tag == 0 && matches!((command, count), (0xC7 | 0xE7, 2) | (0xC5 | 0xC6, 4)),
        }
}

/// What every checker does once a line is good: the whole file's tests, from what it keeps of the lines.
struct Whole {
    lines: usize,
    identity: [u8; 4],
    revision: u8,
    step: usize,
    place: usize,
    early: bool,
    burn: bool,
    spots: [(u8, u8); 24],
    seen: usize,
}

impl Whole {
    fn new() -> Self {
        Whole { lines: 0, identity: [0; 4], revision: 0, step: 1, place: 0, early: false, burn: false, spots: [(0, 0); 24], seen: 0 }
    }

    #[inline(always)]
    fn take(&mut self, line: &Line) {
        self.lines += 1;
        let n = self.lines;
        self.early |= self.burn;
        self.burn = line.command == 0xE7 && line.data[0] == 8 && line.data[1] == 0;
        if n == 1 {
            self.identity = line.data;
        } else if n == 2 {
            self.revision = line.data[0];
            (self.step, self.place) = if line.data[0] < 2 { (337, 276) } else { (363, 290) };
        } else if n >= 12 && ((n - 12) % self.step == 0 || n >= self.place && (n - self.place) % self.step == 0) && self.seen < 24 {
            self.spots[self.seen] = (line.command, line.data[0] % 16);
            self.seen += 1;
        }
    }

    fn number(&self) -> u8 {
        let n = self.lines;
        if n < 13 {
            return 7;
        }
        if !matches!(self.revision, 0 | 1 | 6 | 7) {
            return 8;
        }
        if self.identity[..2] != [0x49, 0xD2] || self.identity[3] != 0 || !PARTS.contains(&self.identity[2]) {
            return 9;
        }
        let k = (n - 12) / self.step;
        if (n - 12) % self.step != 0 || !(1..=8).contains(&k) {
            return 7;
        }
        if !self.burn || self.early {
            return 10;
        }
        let spots = &self.spots[..2 * k];
        if spots.iter().any(|spot| spot.0 != 0xC6) {
            return 11;
        }
        let ids: Vec<u8> = spots.iter().step_by(2).map(|spot| spot.1).collect();
        if (0..k).any(|i| ids[..i].contains(&ids[i])) {
            return 13;
        }
        0
    }
}

fn read_plainly(text: &[u8], number: usize) -> Result<Line, u8> {
    if text.iter().any(|&byte| nibble(byte).is_none()) {
        return Err(2);
    }
    if text.len() % 2 != 0 || text.len() < 10 || text.len() > 74 {
        return Err(3);
    }
    let mut bytes = [0u8; 37];
    for (byte, pair) in bytes.iter_mut().zip(text.chunks_exact(2)) {
        *byte = 16 * nibble(pair[0]).unwrap_or(0) + nibble(pair[1]).unwrap_or(0);
    }
    let m = text.len() / 2;
    if bytes[1] as usize + 2 != m {
        return Err(4);
    }
    let crc = bytes[2..m - 1].iter().fold(0, |crc, byte| REMAINDERS[(crc ^ byte) as usize]);
    if crc != bytes[m - 1] {
        return Err(5);
    }
    if !fits(number, bytes[0], bytes[2], bytes[3], m - 5) {
        return Err(6);
    }
    Ok(Line { command: bytes[3], data: [bytes[4], bytes[5], bytes[6], bytes[7]] })
}

#[inline(never)]
fn straightforward(text: &[u8]) -> u8 {
    if text.len() > 65_536 {
        return 1;
    }
    let mut whole = Whole::new();
    let mut at = 0;
    while at < text.len() {
        let length = text[at..].iter().position(|&byte| byte == b'\n');
        let end = length.map_or(text.len(), |length| at + length);
        let line = if length.is_some() { text[at..end].strip_suffix(b"\r").unwrap_or(&text[at..end]) } else { &text[at..end] };
        match read_plainly(line, whole.lines + 1) {
            Ok(line) => whole.take(&line),
            Err(number) => return number,
        }
        at = end + 1;
    }
    whole.number()
}

#[inline(never)]
fn fastest(text: &[u8]) -> u8 {
    if text.len() > 65_536 {
        return 1;
    }
    let mut whole = Whole::new();
    let mut at = 0;
    let mut bytes = [0u8; 40];
    while at < text.len() {
        // two digits at a time, until something else than a digit comes
        let (mut e, mut m) = (at, 0);
        let ends = loop {
            let high = text.get(e).map_or(16, |&byte| DIGITS[byte as usize]);
            if high > 15 {
                break true;
            }
            let low = text.get(e + 1).map_or(16, |&byte| DIGITS[byte as usize]);
            if low > 15 {
                e += 1;
                break false;
            }
            if m < 38 {
                bytes[m] = 16 * high + low;
            }
            m += 1;
            e += 2;
        };
        let next = match text.get(e) {
            None => e,
            Some(b'\n') => e + 1,
            Some(b'\r') if text.get(e + 1) == Some(&b'\n') => e + 2,
            _ => return 2,
        };
        if !ends || !(5..=37).contains(&m) {
            return 3;
        }
        if bytes[1] as usize + 2 != m {
            return 4;
        }
        let crc = bytes[2..m - 1].iter().fold(0, |crc, byte| REMAINDERS[(crc ^ byte) as usize]);
        if crc != bytes[m - 1] {
            return 5;
        }
        if !fits(whole.lines + 1, bytes[0], bytes[2], bytes[3], m - 5) {
            return 6;
        }
        whole.take(&Line { command: bytes[3], data: [bytes[4], bytes[5], bytes[6], bytes[7]] });
        at = next;
    }
    whole.number()
}

pub fn proved(text: &[u8]) -> u8 {
    unsafe { tehilgam_refusal(text.as_ptr(), text.len()) }
}

/// Nanoseconds of each checker, proved first.
fn times(text: &[u8]) -> [f64; 3] {
    let checkers: [fn(&[u8]) -> u8; 3] = [proved, straightforward, fastest];
    assert!(checkers.iter().all(|check| check(text) == 0), "every checker accepts the file");
    let [a, b, c] = checkers.map(|check| move || u32::from(check(black_box(text))));
    least(10, [&a, &b, &c])
}

pub fn rows(text: &[u8]) -> Vec<Row> {
    let [ours, straightforward, fastest] = times(text);
    vec![
        Row { what: "check of 8 configurations, straightforward", ours, plain: straightforward, goal: Some(0.6) },
        Row { what: "check of 8 configurations, fastest plain", ours, plain: fastest, goal: Some(1.2) },
    ]
}

/// How the cost of a check grows with the configurations.
pub fn print_growth(texts: &[Vec<u8>]) {
    println!("check, by configurations:  k     lines        us   ns a line");
    for (k, text) in (1..).zip(texts) {
        let lines = text.split_inclusive(|&byte| byte == b'\n').count();
        let [ours, ..] = times(text);
        println!("                       {k:>5} {lines:>9} {:>9.1} {:>11.1}", ours / 1e3, ours / lines as f64);
    }
}
