//! A begin with a summary: the proved one, by an entry for measuring, against a plain one in Rust that does the same work: it looks
//! at the settings, k, n and the identifiers, fills a state of the same size, and makes the first request with its PEC. A begin
//! does not look at the file, so its cost is printed beside a check's, which grows with the file.
use crate::check::proved;
use crate::plain::REMAINDERS;
use crate::times::{black_box, least, Row};

#[link(name = "measured", kind = "static")]
extern "C" {
    /// The requests put out by a begin with the summary of a production file: 1, or 0 where it is refused. There are eight ids.
    fn measured_begin(lines: u32, configs: u8, line5: usize, ids: *const u8) -> u32;
}

/// The step of a production file.
const STEP: u32 = 363;
const IDS: [u8; 8] = [0, 1, 2, 3, 4, 5, 6, 7];

/// What a begin takes of a file.
struct Summary {
    lines: u32,
    configs: u8,
    line5: usize,
    ids: [u8; 8],
}

impl Summary {
    /// Of a production file with line feeds: n, k, and where line 5 begins.
    fn of(text: &[u8]) -> Summary {
        let lines = text.split_inclusive(|&byte| byte == b'\n');
        let count = lines.clone().count() as u32;
        Summary { lines: count, configs: ((count - 12) / STEP) as u8, line5: lines.take(4).map(<[u8]>::len).sum(), ids: IDS }
    }
}

struct Settings {
    wanted: bool,
    limit: u16,
    restore: u8,
    rule: u8,
    address: u8,
}

const SETTINGS: Settings = Settings { wanted: false, limit: 1, restore: 0xF2, rule: 1, address: 0xC2 };
const IDENTITY: u32 = 0x49D2_8100;
const CRCS: [u32; 8] = [0xE0CD_9882; 8];

/// The state as a session holds it: the settings, the summary, where it stands and what it reports. Most of it is not read here.
#[allow(dead_code)]
struct Held {
    settings: Settings,
    production: bool,
    identity: u32,
    lines: u32,
    configs: u8,
    line5: usize,
    ids: [u8; 8],
    crcs: [u32; 8],
    step: u8,
    line: u32,
    place: usize,
    polls: u32,
    config: u8,
    counter: u32,
    told: u32,
    flag: u32,
    sent: u32,
    burned: bool,
    verdict: u8,
}

struct Request {
    bytes: [u8; 8],
    used: u8,
    reads: bool,
}

fn is_allowed(settings: &Settings) -> bool {
    (1..=10_000).contains(&settings.limit)
        && !matches!(settings.restore, 0xC5 | 0xC6 | 0xC7 | 0xE7 | 0xAD | 0xAE)
        && (1..=2).contains(&settings.rule)
        && (0x10..=0xEE).contains(&settings.address)
        && settings.address % 2 == 0
}

/// Whether k is 1 to 8, n is 12 + s x k, and no identifier under k is above 15.
fn stands(summary: &Summary) -> bool {
    (1..=8).contains(&summary.configs)
        && summary.lines == 12 + STEP * u32::from(summary.configs)
        && summary.ids[..usize::from(summary.configs)].iter().all(|&id| id <= 15)
}

/// The write of C7 and a register's two bytes, with its PEC.
fn selected(address: u8, register: [u8; 2]) -> Request {
    let said = [address, 0xC7, register[0], register[1]];
    let pec = said.iter().fold(0, |crc, byte| REMAINDERS[usize::from(crc ^ byte)]);
    Request { bytes: [said[0], said[1], said[2], said[3], pec, 0, 0, 0], used: 5, reads: false }
}

#[inline(never)]
fn plain(settings: Settings, summary: &Summary) -> Result<(Held, Request), u8> {
    if !is_allowed(&settings) {
        return Err(14);
    }
    if !stands(summary) {
        return Err(15);
    }
    let request = selected(settings.address, if settings.wanted { [0xA2, 0x00] } else { [0x35, 0x00] });
    let held = Held {
        step: if settings.wanted { 1 } else { 2 },
        settings,
        production: true,
        identity: IDENTITY,
        lines: summary.lines,
        configs: summary.configs,
        line5: summary.line5,
        ids: summary.ids,
        crcs: CRCS,
        line: 5,
        place: summary.line5,
        polls: 0,
        config: 0,
        counter: 0,
        told: 0,
        flag: 0,
        sent: 1,
        burned: false,
        verdict: 0,
    };
    Ok((held, request))
}

/// The requests that the plain begin puts out, with all that it hands back looked at.
fn plain_begin(summary: &Summary) -> u32 {
    match plain(black_box(SETTINGS), black_box(summary)) {
        Ok((held, request)) => {
            black_box((request.bytes, request.used, request.reads));
            black_box(&held).sent
        }
        Err(_) => 0,
    }
}

fn proved_begin(summary: &Summary) -> u32 {
    let summary = black_box(summary);
    unsafe { measured_begin(summary.lines, summary.configs, summary.line5, summary.ids.as_ptr()) }
}

/// Both begin with this summary, and neither with one that has a line more or an identifier above 15.
fn assert_begins(summary: &Summary) {
    let Summary { lines, configs, line5, ids } = *summary;
    let mut high = ids;
    high[usize::from(configs) - 1] = 16;
    let others = [Summary { lines: lines + 1, configs, line5, ids }, Summary { lines, configs, line5, ids: high }];
    for begin in [proved_begin, plain_begin] {
        assert_eq!(begin(summary), 1, "a summary that stands");
        assert!(others.iter().all(|other| begin(other) == 0), "one that does not");
    }
}

pub fn rows(text: &[u8]) -> Vec<Row> {
    let summary = Summary::of(text);
    assert_begins(&summary);
    let [ours, plain] = least(50_000, [&|| proved_begin(&summary), &|| plain_begin(&summary)]);
    vec![Row { what: "begin with a summary, k = 8", ours, plain, goal: None }]
}

/// A check grows with the file, a begin with its summary does not.
pub fn print_growth(texts: &[Vec<u8>]) {
    println!("begin with a summary:      k     bytes  check us  begin ns  begins a check");
    for (k, text) in (1..).zip(texts) {
        let summary = Summary::of(text);
        assert_begins(&summary);
        let [check] = least(10, [&|| u32::from(proved(black_box(text)))]);
        let [begin] = least(50_000, [&|| proved_begin(&summary)]);
        println!("                       {k:>5} {:>9} {:>9.1} {begin:>9.1} {:>15.0}", text.len(), check / 1e3, check / begin);
    }
}
