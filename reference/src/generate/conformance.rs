//! Conformance lines: fixed ones first, then random ones, mostly calls and mostly near a limit.

use super::text::put_drawn;
use super::{broadcast_calls, calendar_calls, client_calls, extension_calls, ledger_calls};
use super::{
    firmware_calls, fixed, list_calls, malformed, plain_calls, server_calls, time_calls,
    write_lines,
};
use crate::conformance::call::Call;
use crate::random::Random;
use std::io::{self, Write};

/// Each kind of malformed line occurs once in so many.
pub const RARE: u64 = 50;

/// Appends the octets of one call.
pub fn put_call(r: &mut Random, line: &mut Vec<u8>) {
    match r.below(196) {
        0..=2 => plain_calls::difference(r, line),
        3..=12 | 99 => plain_calls::measure(r, line),
        13..=16 => plain_calls::read_fields(r, line),
        17..=21 => plain_calls::write_fields(r, line),
        22..=26 => calendar_calls::date_of_timestamp(r, line),
        27..=34 => calendar_calls::timestamp_of_date(r, line),
        35..=38 => plain_calls::precision(r, line),
        39..=50 => client_calls::ask(r, line),
        51..=80 => client_calls::arrival(r, line),
        81..=87 => client_calls::give_up(r, line),
        88..=97 => server_calls::reply(r, line),
        98 if r.one_in(2) => Call::Fresh.put(line),
        98 => Call::Constants.put(line),
        100 | 101 => ledger_calls::entry(r, line),
        102 | 103 => ledger_calls::tick(r, line),
        104..=111 => list_calls::ask(r, line),
        112..=127 => list_calls::arrival(r, line),
        128..=131 => list_calls::give_up(r, line),
        132..=138 => broadcast_calls::write(r, line),
        139..=146 => broadcast_calls::arrival(r, line),
        147 => broadcast_calls::arrival_at_unicast_client(r, line),
        148..=152 => extension_calls::read(r, line),
        153..=159 => extension_calls::add(r, line),
        160..=163 => time_calls::unix_of_timestamp(r, line),
        164..=168 => time_calls::timestamp_of_unix(r, line),
        169 | 170 => time_calls::time_read(r, line),
        171 => time_calls::time_answer(r, line),
        _ => firmware_calls::put_call(r, line),
    }
}

/// Writes so many lines; `open` leaves the last line feed off.
pub fn run(count: u64, seed: u64, open: bool, output: impl Write) -> io::Result<()> {
    let mut r = Random::new(seed);
    let mut runs = ledger_calls::Runs::new();
    let mut line = Vec::new();
    let fixed = fixed::lines();
    write_lines(count, open, output, |place, text| {
        if let Some(first) = fixed.get(place as usize) {
            text.extend(first);
            return;
        }
        line.clear();
        if !runs.call(&mut r, &mut line) {
            put_call(&mut r, &mut line);
        }
        if put_drawn(&mut r, RARE, &mut line, malformed::make_malformed, text) {
            runs.keep();
        }
    })
}
