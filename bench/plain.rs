//! What the plain implementations share: the table of remainders, and the value of a digit.

const fn remainders() -> [u8; 256] {
    let mut table = [0; 256];
    let mut b = 0;
    while b < 256 {
        let mut c = b as u8;
        let mut bit = 0;
        while bit < 8 {
            c = if c & 0x80 != 0 { c << 1 ^ 0x07 } else { c << 1 };
            bit += 1;
        }
        table[b] = c;
        b += 1;
    }
    table
}

pub static REMAINDERS: [u8; 256] = remainders();

pub fn nibble(byte: u8) -> Option<u8> {
    match byte {
        b'0'..=b'9' => Some(byte - b'0'),
        b'A'..=b'F' => Some(byte - b'A' + 10),
        b'a'..=b'f' => Some(byte - b'a' + 10),
        _ => None,
    }
}
