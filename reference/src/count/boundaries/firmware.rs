//! The boundaries of calls as C firmware makes them. A call has every row of the client's or the
//! server's call that it stands for, and rows for what firmware alone can hand over.

use super::{Marks, arrival, client, server};
use crate::client::{Client, FRESH, Token, legal};
use crate::conformance::call::AskArguments;
use crate::conformance::firmware_call::{FirmwareCall, LONGEST_SLICE};
use crate::count::outcome::Outcome;
use crate::firmware::{ANSWER, WideSettings, narrow};
use crate::image::{LENGTH, image_of, nearest};
use crate::refusal::Refusal::*;

pub fn firmware_call(m: &mut Marks, call: &FirmwareCall, answer: &[u8], outcome: Outcome) {
    match *call {
        FirmwareCall::Fresh { ref image } => lengths(m, image.len(), outcome),
        FirmwareCall::Ask { ref image, n, version, clock, token, uptime } => {
            images(m, image, outcome);
            let token = Token(token);
            let arguments = AskArguments { n, version: narrow(version), clock, token, uptime };
            client::ask(m, &record(image), &arguments, outcome);
            versions(m, version, n, outcome);
        }
        FirmwareCall::Arrival { ref image, answer: ref slice, t4, alternate, packet } => {
            let client = record(image);
            let kiss = outcome.is_kiss().then_some(alternate != 0);
            images(m, image, outcome);
            answers(m, image, slice.len(), packet, outcome);
            arrival::alternates(m, 0x1B, alternate != 0, outcome);
            arrival::kisses(m, "", &client, image_after(answer), kiss);
            alternates(m, alternate, outcome);
            // The half stands in the answer slice, which follows the number and the image.
            let half = answer.get(1 + LENGTH + 1) == Some(&1);
            arrival::arrival(m, &client, t4, packet, half, outcome);
        }
        FirmwareCall::GiveUp { ref image, uptime } => {
            images(m, image, outcome);
            client::give_up(m, &record(image), uptime, image_after(answer), outcome);
        }
        FirmwareCall::Reply { ref settings, t2, t3, n, request } => {
            server::reply(m, &settings.narrow(), [t2, t3], n, request, outcome);
            wide_settings(m, settings, outcome);
        }
    }
}

/// The record of an image. A fresh one stands for an image that is none of a record's; 46 then
/// refuses the call.
fn record(image: &[u8]) -> Client {
    let client = nearest(image).filter(|client| image_of(client)[..] == *image);
    client.unwrap_or(FRESH)
}

/// The record of the image that an answer shows after its number.
fn image_after(answer: &[u8]) -> Option<Client> {
    nearest(answer.get(1..=LENGTH)?)
}

/// Each length of an image.
fn lengths(m: &mut Marks, length: usize, outcome: Outcome) {
    let refused = outcome.by(ImageNotLegal);
    let wrong = (0..=LONGEST_SLICE.into()).filter(|&n| n != LENGTH);
    m.see_each("46-image-of-", wrong, |n| refused && length == n);
    m.see("image-of-32", !refused && length == LENGTH);
}

/// Images that no record has, by the one octet that is wrong, and the other side of each.
fn images(m: &mut Marks, image: &[u8], outcome: Outcome) {
    lengths(m, image.len(), outcome);
    let refused = outcome.by(ImageNotLegal);
    let octet = |at: usize| image.get(at).copied().unwrap_or(0);
    // Whether a legal record has the image but for this octet.
    let alone = |at: usize, right: &[u8]| {
        right.iter().any(|&value| {
            let mut other = image.to_vec();
            other.splice(at..(at + 1).min(image.len()), [value]);
            nearest(&other).is_some_and(|c| image_of(&c)[..] == other && legal(&c))
        })
    };
    let wrong = |at: usize, right: &[u8]| refused && image.len() == LENGTH && alone(at, right);
    let phase = wrong(0, &[0, 1, 2]);
    m.see_each("46-phase-", [3, 255], |value| phase && octet(0) == value);
    let asked = wrong(2, &[1]);
    m.see_each("46-asked-", [2, 255], |value| asked && octet(2) == value);
    let exponent = wrong(3, &[0]);
    m.see_each("46-exponent-less-6-", [9, 255], |value| exponent && octet(3) == value);
    m.see_each("exponent-less-6-", [0, 8], |value| !refused && octet(3) == value);
    m.see_each("46-octet-", 4..=7, |at| wrong(at, &[0]) && octet(at) != 0);
}

/// Small and wide versions.
fn versions(m: &mut Marks, version: u32, n: u8, outcome: Outcome) {
    let refused = outcome.by(VersionUnsupported);
    let wide = [0, 5, 255, 256, 257, 260, 1 << 31, u32::MAX];
    m.see_each("2-version=", wide, |value| refused && version == value);
    m.see_each("version=", 1..=4, |value| outcome.passed() && version == value);
    m.see("1-before-2-wide", outcome.by(BufferTooShort) && version == 260 && n == 47);
}

/// Each length of an answer slice, and 46 before the first test of an arrival.
fn answers(m: &mut Marks, image: &[u8], length: usize, packet: &[u8], outcome: Outcome) {
    let refused = outcome.by(ImageNotLegal);
    let legal = crate::image::read(image).is_ok();
    let wrong = (0..=LONGEST_SLICE.into()).filter(|&n| n != ANSWER);
    m.see_each("46-answer-of-", wrong, |n| refused && legal && length == n);
    m.see("46-image-and-answer", refused && !legal && length != ANSWER);
    m.see("answer-of-24", outcome == Outcome::Accepted && length == ANSWER);
    m.see("46-before-7", refused && packet.len() < 48);
}

/// Each way to say that there is an alternate, or none, in a kiss.
fn alternates(m: &mut Marks, alternate: u32, outcome: Outcome) {
    let kiss = outcome.is_kiss();
    let numbers = [0, 1, 2, 255, 256, 1 << 16, 1 << 31, u32::MAX];
    m.see_each("kiss-alternate=", numbers, |number| kiss && alternate == number);
}

/// Small and wide settings.
fn wide_settings(m: &mut Marks, settings: &WideSettings, outcome: Outcome) {
    let (sent, refused) = (outcome.passed(), outcome.by(SettingsOutOfRange));
    let WideSettings { synchronised, leap, precision, .. } = *settings;
    let legal_leap = refused && leap <= 2;
    let legal_precision = refused && (-32..=0).contains(&precision);
    m.see_each("23-li=", [3, 255, 256, 257, 258, 1 << 31, u32::MAX], |value| {
        legal_precision && leap == value
    });
    m.see_each(
        "23-precision=",
        [1, 127, 128, 224, 236, 255, 256, -33, -128, -129, -256, i32::MIN, i32::MAX],
        |value| legal_leap && precision == value,
    );
    m.see_each("synchronised=", [0, 1, 2, 256, 1 << 31, u32::MAX], |value| {
        sent && synchronised == value
    });
    m.see("1-before-23-wide", outcome.by(BufferTooShort) && leap == 258);
    m.see("7-before-23-wide", outcome.by(PacketLengthWrong) && leap == 258);
    m.see("23-wide-before-14", refused && synchronised > 1 && leap == 258);
}
