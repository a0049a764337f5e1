//! The PEC by the proved functions against a plain table-driven loop in Rust: 64 KiB by the C entry, and 8 bytes by a table that
//! is made once and lent, and by the C entry, which goes by the table that stands in the archive.
use crate::plain::REMAINDERS;
use crate::times::{black_box, least, Row};

#[link(name = "loader", kind = "static")]
extern "C" {
    fn tehilgam_pec(bytes: *const u8, length: usize) -> u8;
}

#[link(name = "measured", kind = "static")]
extern "C" {
    fn measured_run_with(table: *const [u8; 256], register: u8, bytes: *const u8, length: usize) -> u8;
}

#[inline(never)]
fn plain(bytes: &[u8]) -> u8 {
    bytes.iter().fold(0, |crc, byte| REMAINDERS[(crc ^ byte) as usize])
}

#[inline(never)]
fn plain_lent(table: &[u8; 256], bytes: &[u8]) -> u8 {
    bytes.iter().fold(0, |crc, byte| table[(crc ^ byte) as usize])
}

fn row(what: &'static str, goal: Option<f64>, repeats: u32, proved: impl Fn() -> u8, plain: impl Fn() -> u8) -> Row {
    assert_eq!(proved(), plain());
    let [ours, theirs] = least(repeats, [&|| u32::from(proved()), &|| u32::from(plain())]);
    Row { what, ours, plain: theirs, goal }
}

pub fn rows() -> Vec<Row> {
    let long: Vec<u8> = (0..65536u32).map(|i| (i.wrapping_mul(2_654_435_761) >> 24) as u8).collect();
    let short = &long[100..108];
    let entry = |bytes: &[u8]| unsafe { tehilgam_pec(black_box(bytes).as_ptr(), bytes.len()) };
    let lent = |bytes: &[u8]| unsafe { measured_run_with(black_box(&REMAINDERS), 0, black_box(bytes).as_ptr(), bytes.len()) };
    vec![
        row("PEC of 64 KiB", Some(1.1), 4, || entry(&long), || plain(black_box(&long))),
        row("PEC of 8 bytes, by a lent table", Some(1.3), 50_000, || lent(short), || plain_lent(black_box(&REMAINDERS), black_box(short))),
        row("PEC of 8 bytes, by the C entry", None, 50_000, || entry(short), || plain(black_box(short))),
    ]
}
