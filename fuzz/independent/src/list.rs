//! The calls for a list of servers, from the words of the header: 46 where a whole image is not there,
//! one of them is no legal record's or the answer slice is not 24 octets; then 35; then as the call
//! for one image. The image of the addressed record alone changes.

use crate::{lent, lent_mut, written};
use reference::arrival::Arrived;
use reference::associations::Associations;
use reference::client::{Client, Token};
use reference::firmware::{ANSWER, answer_of, narrow};
use reference::image;
use reference::refusal::Refusal::{self, *};

/// The records of a list of images.
fn records(list: &[u8]) -> Result<Vec<Client>, Refusal> {
    ImageNotLegal.when(!list.len().is_multiple_of(image::LENGTH))?;
    list.chunks(image::LENGTH).map(image::read).collect()
}

/// Writes the image of the record of a number, which is in the list.
fn write_record(list: &mut [u8], number: usize, next: &Associations) {
    let images = list.chunks_mut(image::LENGTH).zip(&next.records);
    if let Some((image, record)) = images.into_iter().nth(number) {
        image.copy_from_slice(&image::image_of(record));
    }
}

#[unsafe(no_mangle)]
pub unsafe extern "C" fn independent_list_ask(
    list: *mut u8,
    list_length: usize,
    at: usize,
    in_use: usize,
    buffer: *mut u8,
    buffer_length: usize,
    version: u32,
    clock: u64,
    token: u64,
    uptime: u64,
) -> u32 {
    let list = unsafe { lent_mut(list, list_length) };
    let buffer = unsafe { lent_mut(buffer, buffer_length) };
    let next = records(list).and_then(|records| {
        let list = Associations { records, in_use };
        list.ask(at, buffer, narrow(version), clock, Token(token), uptime)
    });
    written(next, |next| write_record(list, at, &next))
}

#[unsafe(no_mangle)]
pub unsafe extern "C" fn independent_list_arrival(
    list: *mut u8,
    list_length: usize,
    at: usize,
    in_use: &mut usize,
    answer: *mut u8,
    answer_length: usize,
    t4: u64,
    packet: *const u8,
    packet_length: usize,
) -> u32 {
    let list = unsafe { lent_mut(list, list_length) };
    let answer = unsafe { lent_mut(answer, answer_length) };
    let packet = unsafe { lent(packet, packet_length) };
    let arrived = records(list).and_then(|records| {
        ImageNotLegal.when(answer.len() != ANSWER)?;
        Associations { records, in_use: *in_use }.arrival(at, packet, t4)
    });
    written(arrived, |Arrived { told, next }: Arrived<Associations>| {
        answer.copy_from_slice(&answer_of(&told));
        write_record(list, at, &next);
        *in_use = next.in_use;
    })
}

#[unsafe(no_mangle)]
pub unsafe extern "C" fn independent_list_give_up(
    list: *mut u8,
    list_length: usize,
    at: usize,
    in_use: usize,
    uptime: u64,
) -> u32 {
    let list = unsafe { lent_mut(list, list_length) };
    let next =
        records(list).and_then(|records| Associations { records, in_use }.give_up(at, uptime));
    written(next, |next| write_record(list, at, &next))
}
