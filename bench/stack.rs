//! The stack that a call uses: it is made on a stack of its own that is filled with a pattern, and what lies above the lowest byte
//! that was changed is used. What the call saves is in it; the caller's own frame is not.
use crate::check::tehilgam_refusal;
use crate::reply::{dry_run, measured_replies, ALL};
use std::arch::asm;

const PATTERN: u8 = 0xA5;

type Entry = unsafe extern "C" fn(*const u8, usize, u32) -> u32;

unsafe fn call_on(top: *mut u8, entry: Entry, text: &[u8], word: u32) {
    asm!("mov r12, rsp", "mov rsp, r13", "call r14", "mov rsp, r12",
        out("r12") _, in("r13") top, in("r14") entry,
        inout("rdi") text.as_ptr() => _, inout("rsi") text.len() => _, inout("edx") word => _, clobber_abi("C"));
}

fn used(entry: Entry, text: &[u8], word: u32) -> usize {
    let mut stack = vec![PATTERN; 1 << 20];
    let top = (stack.as_mut_ptr() as usize + stack.len()) & !15;
    unsafe { call_on(top as *mut u8, entry, text, word) };
    let lowest = stack.iter().position(|&byte| byte != PATTERN).map_or(top, |at| stack.as_ptr() as usize + at);
    top - lowest
}

unsafe extern "C" fn refusal(text: *const u8, length: usize, _: u32) -> u32 {
    u32::from(tehilgam_refusal(text, length))
}

pub fn print(text: &[u8]) {
    println!("stack of a check, by tehilgam_refusal: {} bytes", used(refusal, text, 0));
    println!("stack of a reply, by measured_replies, with the sessions that its loop holds: {} bytes", used(measured_replies, &dry_run(text), ALL));
}
