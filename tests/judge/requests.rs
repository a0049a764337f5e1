//! The requests that a dry run prints, judged from the documents alone, as a device on the bus would.

use cases::line::pec;
use cases::{Case, ADDRESS_PLACE};

use crate::changes::decoded;

/// The first request that is not for the address in the settings of a dry run (document 02, R-2), or
/// whose PEC is not its own.
pub fn wrong_request(case: &Case, printed: &str) -> Option<String> {
    wrong_request_at(*case.bytes.get(ADDRESS_PLACE)?, printed)
}

pub fn wrong_request_at(address: u8, printed: &str) -> Option<String> {
    let wrong = printed.lines().find(|line| !is_taken(address, line))?;
    Some(format!("no device at {address:02X} takes {wrong:?}"))
}

/// Whether a device at this address takes a request: the read address is one more, and a write that
/// ends in its PEC has PEC 0. What is no request is nothing to it.
fn is_taken(address: u8, line: &str) -> bool {
    let (verb, digits) = line.split_once(' ').unwrap_or((line, ""));
    let bytes = decoded(digits.as_bytes()).unwrap_or_default();
    match verb {
        "write" => bytes.first() == Some(&address) && pec(&bytes) == 0,
        "read" => match bytes[..] {
            [write, _, read, _] => write == address && Some(read) == write.checked_add(1),
            _ => false,
        },
        _ => true,
    }
}
