//! "The session": the settings, the begin, and the requests in order.

use crate::bus::{Host, READ_IDENTITY, READ_REVISION, REGISTER_DATA};
use crate::bytes::lowest_first;
use crate::kind::Kind;
use crate::lent::write_line_at;
use crate::refusal::{refuse_whole, Refusal};
use crate::summary::{check, Summary, FIRST_WRITE_LINE};
use crate::verdict::{
    end, end_if, Stop, BANKS, COUNTER, FLAG, IDENTITY, KIND, MISMATCH, OLD, PLACES, PROGRAM, STATE,
};

const SETTING: u8 = 14;

pub struct Settings {
    pub step_1_wanted: bool,
    pub poll_limit: u16,
    pub restore_cfg: u8,
    /// The house rule (request R-13).
    pub rule: u8,
    /// The write address (request R-2).
    pub address: u8,
}

impl Settings {
    /// "a rule other than 1 or 2 is 14 SETTING" (R-13), and so is an address that is not "even, 10
    /// to EE hex" (R-2); the others are the page's.
    fn allowed(&self) -> bool {
        let reserved = [0xC5, 0xC6, 0xC7, 0xE7, 0xAD, 0xAE];
        (1..=10_000).contains(&self.poll_limit)
            && !reserved.contains(&self.restore_cfg)
            && [1, 2].contains(&self.rule)
            && (0x10..=0xEE).contains(&self.address)
            && self.address % 2 == 0
    }
}

/// "One operation checks the settings, checks the file and begins. Settings come first."
pub fn begin_with_file(settings: &Settings, file: &[u8]) -> Result<Summary, Refusal> {
    check_settings(settings)?;
    let summary = check(file)?;
    begin(settings, &summary)?;
    Ok(summary)
}

/// "beginning takes settings and summary", and "gives 14 SETTING first, then 15 STATE".
pub fn begin(settings: &Settings, summary: &Summary) -> Result<(), Refusal> {
    check_settings(settings)?;
    if summary.stands() {
        Ok(())
    } else {
        Err(refuse_whole(STATE))
    }
}

fn check_settings(settings: &Settings) -> Result<(), Refusal> {
    if settings.allowed() {
        Ok(())
    } else {
        Err(refuse_whole(SETTING))
    }
}

/// Steps 1 to 6, from top to bottom, of a session begun with this summary and lent this text at every
/// call. Coming to the end is DONE.
pub fn run(
    host: &mut Host,
    settings: &Settings,
    summary: &Summary,
    lent: &[u8],
) -> Result<(), Stop> {
    if settings.step_1_wanted {
        step_1(host)?;
    }
    let told = step_2(host)?;
    let matched = |host: &mut Host| told.match_revision(host, settings.rule, summary);
    step_3(host, &matched, summary, lent)?;
    step_4(host, settings.poll_limit)?;
    step_5(host, summary.configs)?;
    step_6(host, settings.restore_cfg, summary)
}

fn step_1(host: &mut Host) -> Result<(), Stop> {
    host.select([0xA2, 0x00])?;
    let read = host.read_register()?;
    host.write(
        REGISTER_DATA,
        &[read[0] & !(1 << 5), read[1], read[2], read[3]],
    )?;
    host.write(0xE7, &[0x02, 0x00])
}

/// What the device told of itself before the read of AE.
struct Told {
    counter: u32,
    identity: u32,
    flag: u32,
}

/// Up to the read of AE, whose reply is left to be judged.
fn step_2(host: &mut Host) -> Result<Told, Stop> {
    host.select([0x35, 0x00])?;
    let counter = lowest_first(host.read_register()?);
    let identity = lowest_first(host.read_block(READ_IDENTITY)?);
    host.select([0x87, 0xBD])?;
    let flag = lowest_first(host.read_register()?);
    host.put_out_block_read(READ_REVISION);
    Ok(Told {
        counter,
        identity,
        flag,
    })
}

impl Told {
    /// The AE reply, and "23 to 28 are tried after the AE reply, in order."
    fn match_revision(&self, host: &mut Host, rule: u8, summary: &Summary) -> Result<(), Stop> {
        let revision = lowest_first(host.block_reply(READ_REVISION)?);
        end_if(self.counter > 28, COUNTER)?;
        end_if(self.identity != summary.identity, IDENTITY)?;
        let wanted = match kind_wanted(self.flag, self.counter) {
            Some(kind) => kind,
            None => return end(FLAG),
        };
        end_if(revision >> 24 < 0x06, OLD)?;
        end_if(summary.kind != wanted, KIND)?;
        let counter = self.counter as usize;
        end_if(lacks_places(rule, summary.configs, counter), PLACES)
    }
}

/// 28: "under rule 1, k is more than the counter; under rule 2, k + 2 is".
fn lacks_places(rule: u8, configs: usize, counter: usize) -> bool {
    if rule == 2 {
        configs + 2 > counter
    } else {
        configs > counter
    }
}

/// "Kind wanted".
fn kind_wanted(flag: u32, counter: u32) -> Option<Kind> {
    if flag == 0xFFFE_0001 || counter == 28 {
        Some(Kind::Production)
    } else if flag == 0 && counter < 28 {
        Some(Kind::Legacy)
    } else {
        None
    }
}

/// How the reply to the request in hand is judged.
type Judging<'j> = &'j dyn Fn(&mut Host) -> Result<(), Stop>;

/// "The write lines 5 to n, as they stand"; elsewhere than at C0 this reads "with the address in use
/// and its own PEC" (R-2). At C0 that PEC is the line's last byte, which 5 CRC has judged. The first
/// line stands where the summary says (R-3), each other behind the one before it.
fn step_3(host: &mut Host, judge_ae: Judging, summary: &Summary, lent: &[u8]) -> Result<(), Stop> {
    let n = summary.lines;
    let mut judge = judge_ae;
    let mut place = summary.line_5;
    for number in FIRST_WRITE_LINE..=n {
        let (line, behind) = once_due(host, judge, || write_line_at(lent, place, number, n))?;
        if line.is_burn() {
            host.burn = true;
        }
        host.put_out_write(line.command, &line.data);
        judge = &|host: &mut Host| host.write_reply();
        place = behind;
    }
    judge(host)
}

/// Judges the reply to the request in hand, behind which a line is due, and gives what is due. Where
/// nothing is, the answer is 15, "15 leaves the state as given", and so the next reply is one more to
/// the same request.
fn once_due<T>(host: &mut Host, judge: Judging, due: impl Fn() -> Option<T>) -> Result<T, Stop> {
    judge(host)?;
    loop {
        if let Some(due) = due() {
            return Ok(due);
        }
        match judge(host) {
            Err(Stop::Waiting) => return end(STATE),
            judged => judged?,
        }
    }
}

fn step_4(host: &mut Host, poll_limit: u16) -> Result<(), Stop> {
    host.select([0x7E, 0x00])?;
    let mut status = 0;
    for _ in 0..poll_limit {
        status = lowest_first(host.read_register()?);
        if status & 1 == 1 {
            break;
        }
    }
    end_if(status & 0b11_1111 != 0b00_0001, PROGRAM)
}

fn step_5(host: &mut Host, configs: usize) -> Result<(), Stop> {
    host.select([0x7F, 0x00])?;
    let banks = lowest_first(host.read_register()?);
    let as_they_should_be = |bank: usize| {
        let shown = banks >> (4 * bank) & 0b1111;
        shown == if bank < configs { 0b0001 } else { 0b0000 }
    };
    end_if(!(0..8).all(as_they_should_be), BANKS)
}

fn step_6(host: &mut Host, restore_cfg: u8, summary: &Summary) -> Result<(), Stop> {
    for config in 0..summary.configs {
        host.write(restore_cfg, &[summary.identifiers[config]])?;
        host.select([0x94, 0x00])?;
        let crc = lowest_first(host.read_register()?);
        if crc != summary.crcs[config] {
            return Err(Stop::Verdict {
                number: MISMATCH,
                config,
            });
        }
    }
    Ok(())
}
