//! Conformance lines of the calls as C firmware makes them, and of no others: fixed ones first, then
//! random ones.

use super::conformance::RARE;
use super::text::put_drawn;
use super::{firmware_calls, fixed, malformed, write_lines};
use crate::random::Random;
use std::io::{self, Write};

/// Writes so many lines; `open` leaves the last line feed off.
pub fn run(count: u64, seed: u64, open: bool, output: impl Write) -> io::Result<()> {
    let mut r = Random::new(seed ^ 0x1D1C_1B1A_1900);
    let mut line = Vec::new();
    let fixed = fixed::firmware_lines();
    write_lines(count, open, output, |place, text| {
        if let Some(first) = fixed.get(place as usize) {
            text.extend(first);
            return;
        }
        line.clear();
        firmware_calls::put_call(&mut r, &mut line);
        put_drawn(&mut r, RARE, &mut line, malformed::make_firmware_malformed, text);
    })
}
