//! The boundaries of extension fields that are read and added.

use super::Marks;
use super::tails::tails;
use crate::conformance::call::LONGEST_PACKET;
use crate::conformance::extension_call::{Addition, ExtensionCall};
use crate::count::outcome::Outcome;
use crate::extension::{AUTHENTICATORS, HEAD, LONGEST, field_length, tail};
use crate::packet::LENGTH;
use crate::refusal::Refusal::*;

pub fn extension_call(m: &mut Marks, call: &ExtensionCall, answer: &[u8], outcome: Outcome) {
    match call {
        ExtensionCall::Read { packet } => tails(m, packet, LONGEST_PACKET, outcome),
        ExtensionCall::Add(addition) => {
            let packet = addition.packet();
            let given = packet.as_deref().unwrap_or_default();
            tails(m, given, LONGEST_PACKET, outcome);
            packets(m, addition, packet.is_some(), outcome);
            rooms(m, addition, given, outcome);
            bodies(m, addition, outcome);
            others(m, addition, given, answer, outcome);
        }
    }
}

/// The length that the packet is said to have against that of the buffer.
fn packets(m: &mut Marks, addition: &Addition, whole: bool, outcome: Outcome) {
    let (length, buffer) = (addition.packet_length, addition.buffer_length);
    let refused = outcome.by(PacketLengthWrong);
    m.see("7-packet=buffer+1", refused && !whole && length == buffer + 1);
    m.see("7-packet=65535", refused && length == u16::MAX);
    m.see("44-packet=buffer", outcome.by(FieldNotAdded) && length == buffer);
    m.see("7-buffer-empty", refused && buffer == 0);
    m.see("7-buffer-47", refused && buffer == 47 && length == 48);
    m.see("7-before-44", refused && usize::from(length) + addition.field.body.len() > LONGEST);
}

/// Each reason for 44 alone, and the other side of it.
fn rooms(m: &mut Marks, addition: &Addition, packet: &[u8], outcome: Outcome) {
    let authenticator = tail(packet).map_or(0, |tail| tail.authenticator.len());
    let (refused, added) = (outcome.by(FieldNotAdded), outcome.passed());
    let body = addition.field.body.len();
    let end = packet.len() + field_length(body);
    let buffer = usize::from(addition.buffer_length);
    let room = end <= buffer && end <= LONGEST;
    m.see_each("44-authenticator-", AUTHENTICATORS, |octets| {
        refused && room && authenticator == octets
    });
    let alone = refused && authenticator == 0;
    m.see("44-buffer-one-short", alone && end <= LONGEST && buffer + 1 == end);
    m.see("buffer-just-enough", added && buffer == end);
    let unfilled = packet.len() + HEAD + body;
    m.see("44-end=1025", alone && end <= buffer && unfilled == LONGEST + 1);
    m.see("44-end=1028", alone && end <= buffer && unfilled == LONGEST + 4);
    m.see("end=1024", added && unfilled == LONGEST);
    m.see("end=1021-and-fill", added && unfilled == LONGEST - 3);
    m.see("end=1020", added && end == LONGEST - 4);
    m.see("44-packet-1024", alone && buffer >= end && packet.len() == LONGEST);
    m.see("44-packet-1000", alone && buffer >= end && packet.len() == LONGEST - 24);
    m.see("packet-996", added && packet.len() == LONGEST - 28);
}

/// Bodies of each length up to that of a field which needs no more fill than to a multiple of 4.
fn bodies(m: &mut Marks, addition: &Addition, outcome: Outcome) {
    let body = addition.field.body.len();
    let added = outcome.passed();
    let most = LONGEST - LENGTH - HEAD;
    m.see_each("body-", 0..=30, |octets| added && body == octets);
    m.see("body-972", added && body == most);
    m.see_each("44-body-", [973, 1100], |octets| outcome.by(FieldNotAdded) && body == octets);
    m.see_each("body-modulo-4-", 0..4, |rest| added && body > 24 && body % 4 == rest);
}

fn others(m: &mut Marks, addition: &Addition, packet: &[u8], answer: &[u8], outcome: Outcome) {
    let added = outcome.passed();
    let end = packet.len() + field_length(addition.field.body.len());
    let buffer = usize::from(addition.buffer_length);
    let after = added && buffer > end;
    let given = addition.first.len();
    m.see("octets-after-the-field", after && given > end);
    m.see("octets-after-the-field-filled", after && given < end);
    m.see("packet-of-filled-octets", added && given < packet.len());
    m.see("buffer-1100", added && buffer == 1100);
    m.see_each("to-fields-", 0..=3, |count| {
        added && tail(packet).is_ok_and(|tail| tail.fields().count() == count)
    });
    // The new length stands after the number.
    let new = answer.get(1..3) == Some(&(end as u16).to_be_bytes());
    m.see("new-length", added && new);
}
