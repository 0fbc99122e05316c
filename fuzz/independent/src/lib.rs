//! The independent program's answers to the calls of include/pongulvesz.h: each function here has the
//! arguments of the call of the same name there, and `independent_` in place of `pongulvesz_`.
//!
//! A reference stands for a pointer to a number, which the header wants valid and not NULL. A slice
//! is a pointer and its length, as in the header.

#![allow(
    clippy::missing_safety_doc,
    clippy::too_many_arguments,
    reason = "the header's arguments and its conditions"
)]

mod client;
mod due;
mod fields;
mod ledger;
mod list;
mod packets;
mod server;
mod times;

use reference::refusal::{Refusal, number_of};
use std::slice;

/// The octets of a lent slice.
unsafe fn lent<'a>(octets: *const u8, length: usize) -> &'a [u8] {
    unsafe { slice::from_raw_parts(octets, length) }
}

/// The octets of a slice that is lent for writing.
unsafe fn lent_mut<'a>(octets: *mut u8, length: usize) -> &'a mut [u8] {
    unsafe { slice::from_raw_parts_mut(octets, length) }
}

/// The number of an answer, which is written where nothing is refused.
fn written<T>(answer: Result<T, Refusal>, write: impl FnOnce(T)) -> u32 {
    let number = number_of(&answer);
    if let Ok(value) = answer {
        write(value);
    }
    number.into()
}
