//! The calls for C behind the boundary that those of the archive have: functions of another object,
//! with a pointer and a length for each slice. `tests/instructions --plain` calls them from C.

#![allow(unsafe_code, clippy::too_many_arguments)]

use std::slice::{from_raw_parts, from_raw_parts_mut};

use crate::c_calls::{self, FIELDS};
use crate::server_block;

/// # Safety
/// As of `pongulvesz_read_fields`.
#[unsafe(no_mangle)]
pub unsafe extern "C" fn plain_read_fields(
    packet: *const u8,
    packet_length: usize,
    fields: *mut u64,
) -> u32 {
    // Safe: the caller lends each slice for its length, and nobody else writes it.
    let (packet, fields) = unsafe {
        (
            from_raw_parts(packet, packet_length),
            &mut *fields.cast::<[u64; FIELDS]>(),
        )
    };
    c_calls::read_fields(packet, fields)
}

/// # Safety
/// As of `pongulvesz_write_fields`.
#[unsafe(no_mangle)]
pub unsafe extern "C" fn plain_write_fields(
    fields: *const u64,
    buffer: *mut u8,
    buffer_length: usize,
) -> u32 {
    // Safe: as in plain_read_fields.
    let (fields, buffer) = unsafe {
        (
            &*fields.cast::<[u64; FIELDS]>(),
            from_raw_parts_mut(buffer, buffer_length),
        )
    };
    c_calls::write_fields(fields, buffer)
}

/// # Safety
/// As of `pongulvesz_ask`.
#[unsafe(no_mangle)]
pub unsafe extern "C" fn plain_ask(
    image: *mut u8,
    image_length: usize,
    buffer: *mut u8,
    buffer_length: usize,
    version: u32,
    clock: u64,
    token: u64,
    uptime: u64,
) -> u32 {
    // Safe: as in plain_read_fields.
    let (image, buffer) = unsafe {
        (
            from_raw_parts_mut(image, image_length),
            from_raw_parts_mut(buffer, buffer_length),
        )
    };
    c_calls::ask(image, buffer, version, clock, token, uptime)
}

/// # Safety
/// As of `pongulvesz_arrival`.
#[unsafe(no_mangle)]
pub unsafe extern "C" fn plain_arrival(
    image: *mut u8,
    image_length: usize,
    answer: *mut u8,
    answer_length: usize,
    t4: u64,
    alternate: u32,
    packet: *const u8,
    packet_length: usize,
) -> u32 {
    // Safe: as in plain_read_fields.
    let (image, answer, packet) = unsafe {
        (
            from_raw_parts_mut(image, image_length),
            from_raw_parts_mut(answer, answer_length),
            from_raw_parts(packet, packet_length),
        )
    };
    c_calls::arrival(image, answer, t4, alternate, packet)
}

/// # Safety
/// As of `pongulvesz_reply`.
#[unsafe(no_mangle)]
pub unsafe extern "C" fn plain_reply(
    synchronised: u32,
    leap: u32,
    precision: i32,
    identifier: u32,
    reference: u64,
    t2: u64,
    t3: u64,
    buffer: *mut u8,
    buffer_length: usize,
    request: *const u8,
    request_length: usize,
) -> u32 {
    // Safe: as in plain_read_fields.
    let (buffer, request) = unsafe {
        (
            from_raw_parts_mut(buffer, buffer_length),
            from_raw_parts(request, request_length),
        )
    };
    let settings = c_calls::settings(synchronised, leap, precision, identifier, reference);
    c_calls::reply(&settings, [t2, t3], buffer, request)
}

/// # Safety
/// As of `pongulvesz_reply_block`.
#[unsafe(no_mangle)]
pub unsafe extern "C" fn plain_reply_block(
    synchronised: u32,
    leap: u32,
    precision: i32,
    identifier: u32,
    reference: u64,
    requests: *const u8,
    requests_length: usize,
    times: *const u64,
    times_count: usize,
    replies: *mut u8,
    replies_length: usize,
    numbers: *mut u8,
    numbers_length: usize,
) -> usize {
    // Safe: as in plain_read_fields.
    let (requests, times, replies, numbers) = unsafe {
        (
            from_raw_parts(requests, requests_length),
            from_raw_parts(times, times_count),
            from_raw_parts_mut(replies, replies_length),
            from_raw_parts_mut(numbers, numbers_length),
        )
    };
    let settings = c_calls::settings(synchronised, leap, precision, identifier, reference);
    server_block::reply_block(&settings, requests, times, replies, numbers)
}
