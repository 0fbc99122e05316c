//! Generators of lines for a comparison of two programs. The same seed gives the same lines.

mod broadcast_calls;
pub mod c;
mod calendar_calls;
mod client_calls;
pub mod clocks;
pub mod conformance;
mod extension_calls;
pub mod faults;
mod firmware_calls;
mod fixed;
mod ledger_calls;
mod list_calls;
mod malformed;
pub mod packets;
mod plain_calls;
mod records;
pub mod replay;
pub mod replies;
mod server_calls;
pub mod tails;
mod text;
pub mod ticks;
pub mod time_calls;
mod timestamps;

use std::io::{self, Write};

/// Text is written in pieces of about this size.
const PIECE: usize = 1 << 16;

/// Writes so many lines; `open` leaves the last line feed off. `put` appends a line by its place,
/// without a line feed.
pub fn write_lines(
    count: u64,
    open: bool,
    mut output: impl Write,
    mut put: impl FnMut(u64, &mut Vec<u8>),
) -> io::Result<()> {
    let mut text = Vec::with_capacity(2 * PIECE);
    for place in 0..count {
        put(place, &mut text);
        if !(open && place + 1 == count) {
            text.push(b'\n');
        }
        if text.len() > PIECE {
            output.write_all(&text)?;
            text.clear();
        }
    }
    output.write_all(&text)?;
    output.flush()
}
