//! Fixed lines of what C firmware alone can hand over: images and answer slices of each length,
//! images with each octet wrong, and wide numbers. Every fixed call of a client and of a server
//! stands among the lines as firmware makes it, too.

use super::clients::{ASK, IDLE, STOPPED, TOKEN, waiting};
use super::exchanges::{SET, reply, request};
use super::{Lines, T, pairs};
use crate::client::{Client, FRESH};
use crate::conformance::call::Call;
use crate::conformance::firmware_call::{FirmwareCall, LONGEST_SLICE};
use crate::firmware::{ANSWER, WideSettings};
use crate::generate::packets::octets_of;
use crate::image::{LENGTH, image_of};
use crate::packet::Fields;

/// Small numbers, and wide ones.
const NUMBERS: [u32; 26] = [
    0,
    1,
    2,
    3,
    4,
    5,
    6,
    7,
    8,
    15,
    127,
    128,
    255,
    256,
    257,
    258,
    259,
    260,
    512,
    1 << 16,
    (1 << 16) + 4,
    (1 << 24) + 1,
    1 << 31,
    (1 << 31) + 4,
    u32::MAX - 1,
    u32::MAX,
];

fn put(lines: &mut Lines, call: FirmwareCall) {
    lines.call(Call::OfFirmware(call));
}

fn ask(image: Vec<u8>, n: u8, version: u32, clock: u64) -> FirmwareCall<'static> {
    FirmwareCall::Ask { image, n, version, clock, token: TOKEN.0, uptime: ASK.uptime }
}

fn arrival(image: Vec<u8>, answer: usize, alternate: u32, packet: &[u8]) -> FirmwareCall<'_> {
    FirmwareCall::Arrival { image, answer: vec![0x77; answer], t4: T, alternate, packet }
}

/// A reply that is accepted, and a kiss.
fn packets() -> [Vec<u8>; 2] {
    let kiss = Fields { stratum: 0, identifier: *b"RATE", ..reply(T, T) };
    [octets_of(&reply(T, T)), octets_of(&kiss)]
}

/// An ask, an arrival and a give-up with this image, which are taken where it is right for them.
fn put_calls(lines: &mut Lines, image: &[u8]) {
    let [good, _] = packets();
    put(lines, ask(image.to_vec(), 48, 4, T));
    put(lines, arrival(image.to_vec(), ANSWER, 0, &good));
    put(lines, FirmwareCall::GiveUp { image: image.to_vec(), uptime: 5000 });
}

/// Images of each length.
fn put_image_lengths(lines: &mut Lines) {
    for length in 0..=LONGEST_SLICE.into() {
        put(lines, FirmwareCall::Fresh { image: vec![0x77; length] });
        for client in [FRESH, waiting(T)] {
            let mut image = image_of(&client).to_vec();
            image.resize(length, 0);
            put_calls(lines, &image);
        }
    }
}

/// Answer slices of each length, with an image that is legal and with one that is not.
fn put_answer_lengths(lines: &mut Lines) {
    let mut illegal = image_of(&waiting(T)).to_vec();
    illegal.resize(LENGTH - 1, 0);
    let images = [image_of(&waiting(T)).to_vec(), image_of(&IDLE).to_vec(), illegal];
    for length in 0..=LONGEST_SLICE.into() {
        for packet in packets() {
            images.iter().for_each(|image| put(lines, arrival(image.clone(), length, 1, &packet)));
        }
    }
}

/// Images of legal records with one octet set to each of some values.
fn put_octets(lines: &mut Lines) {
    let clients: [Client; 4] = [FRESH, IDLE, STOPPED, waiting(T)];
    for (client, at) in pairs(&clients, &(0..LENGTH).collect::<Vec<usize>>()) {
        for value in [0, 1, 2, 3, 4, 5, 8, 9, 128, 255] {
            let mut image = image_of(&client).to_vec();
            image.splice(at..at + 1, [value]);
            put_calls(lines, &image);
        }
    }
}

/// Every value of the octet that holds the exponent.
fn put_exponents(lines: &mut Lines) {
    for value in 0..=255 {
        let mut image = image_of(&IDLE).to_vec();
        image.splice(3..4, [value]);
        put(
            lines,
            FirmwareCall::Ask { image, n: 48, version: 4, clock: T, token: 1, uptime: 1 << 20 },
        );
    }
}

/// Small and wide versions, with a buffer and a clock reading that pass and that do not.
fn put_versions(lines: &mut Lines) {
    for version in NUMBERS {
        for (n, clock) in pairs(&[47, 48], &[0, T]) {
            put(lines, ask(image_of(&FRESH).to_vec(), n, version, clock));
        }
    }
}

/// Small and wide numbers for whether an alternate exists.
fn put_alternates(lines: &mut Lines) {
    for alternate in NUMBERS {
        for packet in packets() {
            let image = image_of(&waiting(T)).to_vec();
            put(lines, arrival(image, ANSWER, alternate, &packet));
        }
    }
}

/// Settings with small and wide numbers, with a buffer and a request that pass and that do not.
fn put_settings(lines: &mut Lines) {
    let set = WideSettings {
        synchronised: 1,
        leap: SET.leap.into(),
        precision: SET.precision.into(),
        identifier: SET.identifier,
        reference: SET.reference,
    };
    let leaps = NUMBERS.into_iter().map(|leap| WideSettings { leap, ..set });
    let signed =
        NUMBERS.into_iter().flat_map(|number| [number as i32, (number as i32).wrapping_neg()]);
    let noted = [-31, -32, -33, -129, -224, 224, 236, i32::MIN + 1, i32::MAX];
    let precisions = signed.chain(noted).map(|precision| WideSettings { precision, ..set });
    let synchronised = NUMBERS.into_iter().map(|synchronised| WideSettings { synchronised, ..set });
    for settings in leaps.chain(precisions).chain(synchronised) {
        for (n, length) in pairs(&[47, 48], &[47, 48]) {
            let mut octets = octets_of(&request());
            octets.truncate(length);
            let (t2, t3) = (5 * T, 6 * T);
            put(lines, FirmwareCall::Reply { settings, t2, t3, n, request: &octets });
        }
    }
}

/// Settings that pass and that do not, synchronised by each number, and not.
fn put_unsynchronised(lines: &mut Lines) {
    let request = octets_of(&request());
    for (synchronised, t2) in pairs(&[0, 1, 2, 256, 1 << 31, u32::MAX], &[0, 5 * T]) {
        for (leap, precision) in pairs(&[0, 258], &[-20, 224]) {
            let (identifier, reference) = (SET.identifier, SET.reference);
            let settings = WideSettings { synchronised, leap, precision, identifier, reference };
            put(lines, FirmwareCall::Reply { settings, t2, t3: 6 * T, n: 48, request: &request });
        }
    }
}

pub fn put_lines(lines: &mut Lines) {
    put_image_lengths(lines);
    put_answer_lengths(lines);
    put_octets(lines);
    put_exponents(lines);
    put_versions(lines);
    put_alternates(lines);
    put_settings(lines);
    put_unsynchronised(lines);
}
