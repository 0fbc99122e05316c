//! The client's calls on one image.

use crate::{lent, lent_mut};
use reference::firmware;

#[unsafe(no_mangle)]
pub unsafe extern "C" fn independent_fresh(image: *mut u8, image_length: usize) -> u32 {
    firmware::fresh(unsafe { lent_mut(image, image_length) }).into()
}

#[unsafe(no_mangle)]
pub unsafe extern "C" fn independent_ask(
    image: *mut u8,
    image_length: usize,
    buffer: *mut u8,
    buffer_length: usize,
    version: u32,
    clock: u64,
    token: u64,
    uptime: u64,
) -> u32 {
    let image = unsafe { lent_mut(image, image_length) };
    let buffer = unsafe { lent_mut(buffer, buffer_length) };
    firmware::ask(image, buffer, version, clock, token, uptime).into()
}

#[unsafe(no_mangle)]
pub unsafe extern "C" fn independent_arrival(
    image: *mut u8,
    image_length: usize,
    answer: *mut u8,
    answer_length: usize,
    t4: u64,
    alternate: u32,
    packet: *const u8,
    packet_length: usize,
) -> u32 {
    let image = unsafe { lent_mut(image, image_length) };
    let answer = unsafe { lent_mut(answer, answer_length) };
    let packet = unsafe { lent(packet, packet_length) };
    firmware::arrival(image, answer, packet, t4, alternate).into()
}

#[unsafe(no_mangle)]
pub unsafe extern "C" fn independent_give_up(
    image: *mut u8,
    image_length: usize,
    uptime: u64,
) -> u32 {
    firmware::give_up(unsafe { lent_mut(image, image_length) }, uptime).into()
}
