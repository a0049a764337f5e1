//! "The session": the verdicts, and how the procedure is left at one.

pub const DONE: u8 = 0;
pub const NACK: u8 = 20;
pub const SHAPE: u8 = 21;
pub const WRONG_PEC: u8 = 22;
pub const COUNTER: u8 = 23;
pub const IDENTITY: u8 = 24;
pub const FLAG: u8 = 25;
pub const OLD: u8 = 26;
pub const KIND: u8 = 27;
pub const PLACES: u8 = 28;
pub const PROGRAM: u8 = 29;
pub const BANKS: u8 = 30;
pub const MISMATCH: u8 = 31;

/// 15, at a begin with a summary, or as the answer to a reply.
pub const STATE: u8 = 15;

/// Why the procedure went no further: no reply was left, or a verdict from 20 to 31 was given. 15 of
/// a reply is no verdict: it is told as one where no reply was left behind it.
pub enum Stop {
    Waiting,
    Verdict { number: u8, config: usize },
}

/// Ends the session with a verdict that is not 31, whose N is 0.
pub fn end<T>(number: u8) -> Result<T, Stop> {
    Err(Stop::Verdict { number, config: 0 })
}

/// Goes on only if a verdict does not apply.
pub fn end_if(applies: bool, number: u8) -> Result<(), Stop> {
    if applies {
        end(number)
    } else {
        Ok(())
    }
}
