//! Conformance lines whose octets are not a call.

use super::broadcast_calls;
use super::client_calls::{arrival, ask, give_up};
use super::conformance::put_call;
use super::extension_calls;
use super::firmware_calls;
use super::list_calls;
use super::packets::put_any;
use super::plain_calls::write_fields;
use super::server_calls::reply;
use super::time_calls;
use crate::conformance::broadcast_call::N_OF_BROADCAST_AT;
use crate::conformance::call::*;
use crate::conformance::extension_call::{BODY_LENGTH_AT, BUFFER_LENGTH_AT, LONGEST_ADDITION};
use crate::conformance::firmware_call::{IMAGE_LENGTH_AT, LONGEST_SLICE, N_OF_FIRMWARE_REPLY_AT};
use crate::conformance::list_call::{COUNT_AT, LARGEST_COUNT, record_at};
use crate::conformance::records::{ASKED_AFTER_PHASE, TOKEN_AFTER_PHASE};
use crate::conformance::time_call::N_OF_TIME_AT;
use crate::random::Random;

/// An operation that is not listed.
fn unlisted(r: &mut Random) -> u8 {
    loop {
        let operation = r.octet();
        if lengths(operation, &[0]) == Err(Malformed::Operation) {
            return operation;
        }
    }
}

/// Shortest and longest line of the operation that a line begins with.
fn line_lengths(line: &[u8]) -> (usize, usize) {
    let split = line.split_first();
    let rest = split.and_then(|(&operation, rest)| lengths(operation, rest).ok());
    let (shortest, longest) = rest.unwrap_or_default();
    (1 + shortest, 1 + longest)
}

/// Whether the line's operation has one length, and octets after it.
fn has_one_length(line: &[u8]) -> bool {
    let (shortest, longest) = line_lengths(line);
    shortest == longest && longest > 1
}

/// Cuts a line of an operation that has one length.
fn cut(r: &mut Random, line: &mut Vec<u8>) {
    while !has_one_length(line) {
        line.clear();
        put_call(r, line);
    }
    let keep = match r.below(2) {
        0 => line.len() - 1,
        _ => 1 + r.below(line.len() as u64 - 1) as usize,
    };
    line.truncate(keep);
}

fn lengthen(r: &mut Random, line: &mut Vec<u8>) {
    let (_, longest) = line_lengths(line);
    let more = match r.below(8) {
        0 => r.below(2000),
        1 => r.below(30),
        _ => 0,
    };
    let add = longest + 1 + more as usize - line.len();
    put_any(r, add, line);
}

/// A line that ends before its packet begins, or within the body of an addition.
fn cut_before_packet(r: &mut Random, line: &mut Vec<u8>) {
    line.clear();
    match r.below(5) {
        0 => arrival(r, line),
        1 => list_calls::arrival(r, line),
        2 => broadcast_calls::arrival(r, line),
        3 => extension_calls::add(r, line),
        _ => reply(r, line),
    }
    let (shortest, _) = line_lengths(line);
    let keep = if r.one_in(2) { shortest - 1 } else { 1 + r.below(shortest as u64 - 1) as usize };
    line.truncate(keep);
}

/// Leaves the token out of each record of a line.
pub fn leave_out_tokens(line: &mut Vec<u8>) {
    let places: Vec<usize> = match line[..] {
        [0x08..=0x0A, ..] => vec![PHASE_AT],
        [0x0E..=0x10, count, ..] => (0..count.into()).map(record_at).collect(),
        _ => Vec::new(),
    };
    for record in places.into_iter().rev() {
        let token = record + TOKEN_AFTER_PHASE;
        line.drain(token..token + 8);
    }
}

/// Leaves an ask's own token out, which stands before the uptime.
pub fn leave_out_token_of_ask(line: &mut Vec<u8>) {
    let end = line.len() - 8;
    line.drain(end - 8..end);
}

/// A give-up without the record's token, or an ask without its own and at times without those of
/// the records.
fn make_tokens_missing(r: &mut Random, line: &mut Vec<u8>) {
    line.clear();
    match r.below(3) {
        0 => ask(r, line),
        1 => list_calls::ask(r, line),
        _ => {
            give_up(r, line);
            leave_out_tokens(line);
            return;
        }
    }
    leave_out_token_of_ask(line);
    if r.one_in(2) {
        leave_out_tokens(line);
    }
}

/// Sets an octet of a line to `least` often, or to any value from it on.
fn set_from(r: &mut Random, at: usize, least: u8, line: &mut [u8]) {
    let value = match r.below(3) {
        0 | 1 => least,
        _ => least + r.below(256 - u64::from(least)) as u8,
    };
    set(at, value, line);
}

fn set(at: usize, value: u8, line: &mut [u8]) {
    if let Some(octet) = line.get_mut(at) {
        *octet = value;
    }
}

/// Puts a call for a record of a list that is not empty, and gives the number of records.
fn put_list_call(r: &mut Random, line: &mut Vec<u8>) -> usize {
    loop {
        line.clear();
        match r.below(3) {
            0 => list_calls::ask(r, line),
            1 => list_calls::arrival(r, line),
            _ => list_calls::give_up(r, line),
        }
        if let Some(&count @ 1..) = line.get(COUNT_AT) {
            return count.into();
        }
    }
}

/// A list with more records than a line may have: by its count alone, or in truth.
fn make_count_large(r: &mut Random, line: &mut Vec<u8>) {
    let count = put_list_call(r, line);
    let large = LARGEST_COUNT + 1;
    if r.one_in(2) {
        set_from(r, COUNT_AT, large, line);
        return;
    }
    let first = line.get(record_at(0)..record_at(1)).unwrap_or_default();
    let more = first.repeat(usize::from(large) - count);
    line.splice(record_at(0)..record_at(0), more);
    set(COUNT_AT, large, line);
}

/// A flag or a phase that there is not.
fn make_flag_wrong(r: &mut Random, line: &mut Vec<u8>) {
    const PHASE: (usize, u8) = (PHASE_AT, 3);
    const ASKED: (usize, u8) = (ASKED_AT, 2);
    const ALTERNATE: (usize, u8) = (ALTERNATE_AT, 2);
    line.clear();
    let (at, least) = match r.below(6) {
        0 => {
            ask(r, line);
            r.pick([PHASE, ASKED])
        }
        1 => {
            arrival(r, line);
            r.pick([PHASE, ASKED, ALTERNATE])
        }
        2 => {
            give_up(r, line);
            r.pick([PHASE, ASKED])
        }
        3 => {
            let count = put_list_call(r, line);
            let at = record_at(r.below(count as u64) as usize);
            r.pick([(at, 3), (at + ASKED_AFTER_PHASE, 2)])
        }
        4 => {
            broadcast_calls::write(r, line);
            (SYNCHRONISED_AT, 2)
        }
        _ => {
            reply(r, line);
            (SYNCHRONISED_AT, 2)
        }
    };
    set_from(r, at, least, line);
}

/// A buffer that is too long.
fn make_buffer_long(r: &mut Random, line: &mut Vec<u8>) {
    line.clear();
    let at = match r.below(6) {
        0 => {
            write_fields(r, line);
            N_OF_WRITE_AT
        }
        1 => {
            ask(r, line);
            N_OF_ASK_AT
        }
        2 => {
            list_calls::ask(r, line);
            record_at(line.get(COUNT_AT).map_or(0, |&count| count.into()))
        }
        3 => {
            broadcast_calls::write(r, line);
            N_OF_BROADCAST_AT
        }
        4 => {
            time_calls::time_answer(r, line);
            N_OF_TIME_AT
        }
        _ => {
            reply(r, line);
            N_OF_REPLY_AT
        }
    };
    set_from(r, at, LONGEST + 1, line);
}

/// An addition to a buffer, or of a body, that is too long.
fn make_addition_long(r: &mut Random, line: &mut Vec<u8>) {
    line.clear();
    extension_calls::add(r, line);
    let at = r.pick([BUFFER_LENGTH_AT, BODY_LENGTH_AT]);
    let least = LONGEST_ADDITION + 1;
    let length = if r.one_in(2) { least } else { least + r.below(64_000) as u16 };
    line.splice(at..at + 2, length.to_be_bytes());
}

/// An image or an answer slice that is too long.
fn make_slice_long(r: &mut Random, line: &mut Vec<u8>) {
    line.clear();
    firmware_calls::arrival(r, line);
    let image = line.get(IMAGE_LENGTH_AT).map_or(0, |&length| usize::from(length));
    let at = r.pick([IMAGE_LENGTH_AT, IMAGE_LENGTH_AT + 1 + image]);
    set_from(r, at, LONGEST_SLICE + 1, line);
}

/// A buffer of a firmware's call that is too long.
fn make_firmware_buffer_long(r: &mut Random, line: &mut Vec<u8>) {
    line.clear();
    let at = if r.one_in(2) {
        firmware_calls::ask(r, line);
        IMAGE_LENGTH_AT + 1 + line.get(IMAGE_LENGTH_AT).map_or(0, |&length| usize::from(length))
    } else {
        firmware_calls::reply(r, line);
        N_OF_FIRMWARE_REPLY_AT
    };
    set_from(r, at, LONGEST + 1, line);
}

/// Puts octets of a firmware's call that are malformed.
pub fn make_firmware_malformed(r: &mut Random, line: &mut Vec<u8>) {
    line.clear();
    firmware_calls::put_call(r, line);
    match r.below(8) {
        0 => {
            let operation = unlisted(r);
            set(0, operation, line);
        }
        1 | 2 => {
            let (shortest, _) = line_lengths(line);
            let keep = if r.one_in(2) { shortest - 1 } else { r.below(shortest as u64) as usize };
            line.truncate(keep);
        }
        3 | 4 => lengthen(r, line),
        5 => make_firmware_buffer_long(r, line),
        _ => make_slice_long(r, line),
    }
}

/// Makes a call's octets malformed, or puts other ones in their place that are.
pub fn make_malformed(r: &mut Random, line: &mut Vec<u8>) {
    match r.below(13) {
        0 => {
            let operation = unlisted(r);
            set(0, operation, line);
        }
        1 => cut(r, line),
        2 => lengthen(r, line),
        3 => cut_before_packet(r, line),
        4 | 5 => make_flag_wrong(r, line),
        6 => make_count_large(r, line),
        7 => make_tokens_missing(r, line),
        8 => make_addition_long(r, line),
        9 | 10 => make_firmware_malformed(r, line),
        _ => make_buffer_long(r, line),
    }
}
