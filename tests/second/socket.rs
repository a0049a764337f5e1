//! A dry run at the socket (request R-3): a file checked in the morning, and a session that begins
//! with its summary and is lent a text of its own.

use crate::refusal::{Refusal, ACCEPTED};
use crate::replay::{parse_dry_run, parse_file, session_of, DryRun};
use crate::session::begin;
use crate::summary::{check, Summary};

pub fn socket(input: &[u8]) -> String {
    match parse(input) {
        Ok((morning, dry_run)) => told(morning, &dry_run),
        Err(only_line) => only_line.to_string(),
    }
}

/// The morning's file and the dry run behind it, or the only line to print.
fn parse(input: &[u8]) -> Result<(&[u8], DryRun<'_>), &'static str> {
    let (morning, rest) = parse_file(input)?;
    Ok((morning, parse_dry_run(rest)?))
}

/// "Number, line and place stand beside the summary", which is of zeros where the file is refused.
fn told(morning: &[u8], dry_run: &DryRun) -> String {
    let (beside, summary) = match check(morning) {
        Ok(summary) => (ACCEPTED, summary),
        Err(refusal) => (refusal, Summary::of_zeros()),
    };
    let begun = begin(&dry_run.settings, &summary).map(|()| summary);
    checked_line(beside) + &session_of(dry_run, begun)
}

fn checked_line(beside: Refusal) -> String {
    let Refusal {
        number,
        line,
        place,
    } = beside;
    format!("checked {number} line {line} at {place}\n")
}
