//! Calls as C firmware makes them: those of the client and of the server, with images, answer slices
//! and wide numbers that firmware alone can hand over.

use super::client_calls::{arrived, asked, uptime_of_give_up};
use super::packets::put_any;
use super::records::record;
use super::server_calls::{Request, request};
use crate::client::Phase;
use crate::conformance::call::Call;
use crate::conformance::firmware_call::{FirmwareCall, LONGEST_SLICE};
use crate::firmware::WideSettings;
use crate::image::LENGTH;
use crate::random::Random;

/// A length that a slice should not have, given the one that it should; those beside it often.
fn wrong_length(r: &mut Random, right: usize) -> usize {
    let length = match r.below(4) {
        0 => r.pick([right - 1, right + 1]),
        1 => 0,
        _ => r.below(u64::from(LONGEST_SLICE) + 1) as usize,
    };
    if length == right { right - 1 } else { length }
}

/// Cuts or lengthens a slice to a wrong length.
fn make_length_wrong(r: &mut Random, slice: &mut Vec<u8>) {
    let length = wrong_length(r, slice.len());
    if r.one_in(2) {
        slice.resize(length, 0);
    } else {
        let more = length.saturating_sub(slice.len());
        slice.truncate(length);
        put_any(r, more, slice);
    }
}

/// Changes an image so that mostly no legal record has it.
fn damage(r: &mut Random, image: &mut Vec<u8>) {
    let (at, value) = match r.below(8) {
        0 => (0, 3 + r.octet_below(253)),
        1 => (0, 3),
        2 => (2, 2 + r.octet_below(254)),
        3 => (3, 9 + r.octet_below(247)),
        4 => (3, r.pick([8, 9, 255])),
        5 => (4 + r.below(4) as usize, 1 + r.octet_below(255)),
        6 => (r.below(LENGTH as u64) as usize, r.octet()),
        _ => {
            make_length_wrong(r, image);
            return;
        }
    };
    if let Some(octet) = image.get_mut(at) {
        *octet = value;
    }
}

/// A number with the same last octet, or one that is out of every range of small numbers.
fn widened(r: &mut Random, number: u32) -> u32 {
    match r.below(4) {
        0 => number + 256,
        1 => number | 1 << (8 + r.below(24)),
        2 => r.pick([u32::MAX, 1 << 31, 1 << 16, 256]),
        _ => number.wrapping_sub(256),
    }
}

/// A number that says yes.
fn any_yes(r: &mut Random) -> u32 {
    match r.below(4) {
        0 | 1 => 1,
        2 => r.pick([2, 256, 1 << 31, u32::MAX]),
        _ => 1 + r.below((1 << 32) - 1) as u32,
    }
}

fn widen_settings(r: &mut Random, settings: &mut WideSettings) {
    if settings.synchronised != 0 {
        settings.synchronised = any_yes(r);
    }
    match r.below(16) {
        0 => settings.leap = widened(r, settings.leap),
        1 => settings.precision = widened(r, settings.precision as u32) as i32,
        2 => settings.precision = r.pick([i32::MIN, i32::MAX, 128, -129, 224, 236]),
        _ => {}
    }
}

/// An answer slice: any octets, seldom too few or too many.
fn change_answer(r: &mut Random, answer: &mut Vec<u8>) {
    let count = answer.len();
    answer.clear();
    put_any(r, count, answer);
    if r.one_in(16) {
        make_length_wrong(r, answer);
    }
}

fn widen(r: &mut Random, call: &mut FirmwareCall) {
    match call {
        FirmwareCall::Ask { version, .. } if r.one_in(10) => *version = widened(r, *version),
        FirmwareCall::Arrival { answer, alternate, .. } => {
            change_answer(r, answer);
            if *alternate != 0 {
                *alternate = any_yes(r);
            }
        }
        FirmwareCall::Reply { settings, .. } => widen_settings(r, settings),
        _ => {}
    }
}

/// Appends the call of a client or a server as firmware makes it, at times with what firmware alone
/// can hand over.
fn put(r: &mut Random, call: &Call, line: &mut Vec<u8>) {
    let Some(mut call) = FirmwareCall::of(call) else {
        return;
    };
    widen(r, &mut call);
    if let Some(image) = call.image_mut().filter(|_| r.one_in(10)) {
        damage(r, image);
    }
    Call::OfFirmware(call).put(line);
}

pub fn fresh(r: &mut Random, line: &mut Vec<u8>) {
    let mut image = Vec::new();
    put_any(r, LENGTH, &mut image);
    if r.one_in(3) {
        make_length_wrong(r, &mut image);
    }
    Call::OfFirmware(FirmwareCall::Fresh { image }).put(line);
}

pub fn ask(r: &mut Random, line: &mut Vec<u8>) {
    let client = record(r, Phase::Idle);
    let arguments = asked(r, &client);
    put(r, &Call::Ask { client, arguments }, line);
}

pub fn arrival(r: &mut Random, line: &mut Vec<u8>) {
    let (client, t4, packet) = arrived(r);
    let alternate = r.one_in(2);
    put(r, &Call::Arrival { client, t4, alternate, packet: &packet }, line);
}

pub fn give_up(r: &mut Random, line: &mut Vec<u8>) {
    let client = record(r, Phase::Waiting);
    let uptime = uptime_of_give_up(r, &client);
    put(r, &Call::GiveUp { client, uptime }, line);
}

pub fn reply(r: &mut Random, line: &mut Vec<u8>) {
    let Request { settings, t2, t3, n, octets } = request(r);
    put(r, &Call::Reply { settings, t2, t3, n, request: &octets }, line);
}

/// Appends any of these calls.
pub fn put_call(r: &mut Random, line: &mut Vec<u8>) {
    match r.below(24) {
        0 => fresh(r, line),
        1..=6 => ask(r, line),
        7..=16 => arrival(r, line),
        17..=19 => give_up(r, line),
        _ => reply(r, line),
    }
}
