//! The server's reply, a block of replies, and broadcast.

use crate::{lent, lent_mut, written};
use reference::firmware::{self, WideSettings, narrow};
use reference::{broadcast, packet, refusal};
use std::slice;

#[unsafe(no_mangle)]
pub unsafe extern "C" fn independent_reply(
    synchronised: u32,
    leap: u32,
    precision: i32,
    identifier: u32,
    reference: u64,
    t2: u64,
    t3: u64,
    buffer: *mut u8,
    buffer_length: usize,
    request: *const u8,
    request_length: usize,
) -> u32 {
    let identifier = identifier.to_be_bytes();
    let settings = WideSettings { synchronised, leap, precision, identifier, reference };
    let buffer = unsafe { lent_mut(buffer, buffer_length) };
    let request = unsafe { lent(request, request_length) };
    firmware::reply(&settings, t2, t3, request, buffer).into()
}

/// Each request, its two times, the octets of its reply and that of its number stand side by side;
/// the first of the four slices that has no more of them ends the block.
#[unsafe(no_mangle)]
pub unsafe extern "C" fn independent_reply_block(
    synchronised: u32,
    leap: u32,
    precision: i32,
    identifier: u32,
    reference: u64,
    requests: *const u8,
    requests_length: usize,
    times: *const u64,
    times_length: usize,
    replies: *mut u8,
    replies_length: usize,
    numbers: *mut u8,
    numbers_length: usize,
) -> usize {
    let identifier = identifier.to_be_bytes();
    let settings = WideSettings { synchronised, leap, precision, identifier, reference };
    let requests = unsafe { lent(requests, requests_length) }.chunks_exact(packet::LENGTH);
    let times = unsafe { slice::from_raw_parts(times, times_length) }.chunks_exact(2);
    let replies = unsafe { lent_mut(replies, replies_length) }.chunks_exact_mut(packet::LENGTH);
    let numbers = unsafe { lent_mut(numbers, numbers_length) };
    let block = requests.zip(times).zip(replies).zip(numbers);
    block
        .map(|(((request, times), reply), number)| {
            *number = firmware::reply(&settings, times[0], times[1], request, reply);
        })
        .count()
}

#[unsafe(no_mangle)]
pub unsafe extern "C" fn independent_broadcast(
    synchronised: u32,
    leap: u32,
    precision: i32,
    identifier: u32,
    reference: u64,
    version: u32,
    poll: u32,
    t3: u64,
    buffer: *mut u8,
    buffer_length: usize,
) -> u32 {
    let identifier = identifier.to_be_bytes();
    let settings = WideSettings { synchronised, leap, precision, identifier, reference };
    let buffer = unsafe { lent_mut(buffer, buffer_length) };
    let (version, poll) = (narrow(version), narrow(poll));
    refusal::number_of(&broadcast::write(&settings.narrow(), version, poll, t3, buffer)).into()
}

#[unsafe(no_mangle)]
pub unsafe extern "C" fn independent_broadcast_arrival(
    t4: u64,
    packet: *const u8,
    packet_length: usize,
    difference: &mut i64,
) -> u32 {
    let packet = unsafe { lent(packet, packet_length) };
    written(broadcast::arrival(packet, t4), |answer| *difference = answer)
}
