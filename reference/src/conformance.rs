//! The conformance program: every call's answer, one line in, one line out: docs/CONFORMANCE.md.

pub mod answer;
pub mod broadcast_call;
pub mod call;
mod extension_answer;
pub mod extension_call;
mod firmware_answer;
pub mod firmware_call;
pub mod list_call;
pub mod records;
mod time_answer;
pub mod time_call;

use crate::hex_lines::answer_lines;
use crate::refusal::Refusal;
use call::{Call, LONGEST_LINE};
use std::io::{self, Read, Write};

/// Answers a line's octets; none stand for a line that is not an even number of digits.
pub fn answer(line: &[u8], out: &mut Vec<u8>) {
    match Call::parse(line) {
        Ok(call) => answer::put_answer(&call, out),
        Err(_) => out.push(Refusal::LineMalformed.number()),
    }
}

/// Answers a whole input.
pub fn run(input: impl Read, output: impl Write) -> io::Result<()> {
    answer_lines(input, output, LONGEST_LINE, answer)
}
