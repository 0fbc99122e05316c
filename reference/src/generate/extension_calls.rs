//! Calls on extension fields.

use super::packets::{octets_of, put_any};
use super::plain_calls::any_fields;
use super::tails::{make_illegal, put_broken_tail, put_fields_of, put_tail};
use crate::conformance::call::{Call, LONGEST_PACKET};
use crate::conformance::extension_call::{Addition, ExtensionCall, LONGEST_ADDITION};
use crate::extension::{Field, HEAD, LONGEST, field_length};
use crate::packet::LENGTH;
use crate::random::Random;

pub fn read(r: &mut Random, line: &mut Vec<u8>) {
    let mut packet = octets_of(&any_fields(r));
    match r.below(16) {
        0 => {}
        1 => put_fields_of(r, LONGEST - LENGTH, &mut packet),
        2..=11 => put_tail(r, &mut packet),
        _ => make_illegal(r, LONGEST_PACKET, &mut packet),
    }
    Call::OfExtension(ExtensionCall::Read { packet: &packet }).put(line);
}

/// A packet that a field is to be added to.
fn packet(r: &mut Random) -> Vec<u8> {
    let mut packet = octets_of(&any_fields(r));
    match r.below(16) {
        0..=7 => {}
        8..=13 => put_tail(r, &mut packet),
        14 => put_broken_tail(r, &mut packet),
        _ => make_illegal(r, LONGEST_PACKET, &mut packet),
    }
    packet
}

/// The length of a body, given that of the packet: mostly short, at times about what fits into 1024
/// octets, and seldom more than any packet has room for.
fn body_length(r: &mut Random, packet: usize) -> usize {
    match r.below(32) {
        0 => (LONGEST + 1).saturating_sub(packet + HEAD + r.below(6) as usize),
        1 if r.one_in(4) => r.below(u64::from(LONGEST_ADDITION) + 1) as usize,
        2..=4 => 0,
        5..=20 => r.below(26) as usize,
        _ => r.below(60) as usize,
    }
}

/// The length of the buffer, given that of the packet and of the packet with the field.
fn buffer_length(r: &mut Random, packet: usize, end: usize) -> usize {
    let length = match r.below(16) {
        0..=4 => end,
        5 | 6 => end - 1,
        7 => packet,
        8 => packet.saturating_sub(1),
        9 => packet + r.below((end - packet) as u64) as usize,
        10 if r.one_in(4) => usize::from(LONGEST_ADDITION) - r.below(80) as usize,
        _ => end + r.below(30) as usize,
    };
    length.min(LONGEST_ADDITION.into())
}

/// The length that the packet is said to have.
fn packet_length(r: &mut Random, packet: usize, buffer: usize) -> usize {
    match r.below(32) {
        0 => buffer + 1,
        1 => r.below(LENGTH as u64) as usize,
        2 => r.number() as usize & 0xFFFF,
        3 => r.pick([0, 47, 48, 49, 0xFFFF]),
        _ => packet,
    }
}

/// The first octets of the buffer: the packet, also cut short, or more.
fn first_octets(r: &mut Random, buffer: usize, packet: &mut Vec<u8>) {
    match r.below(4) {
        0 => {
            let more = r.below(buffer.saturating_sub(packet.len()) as u64 + 1);
            put_any(r, more as usize, packet);
        }
        1 => put_any(r, buffer.saturating_sub(packet.len()), packet),
        2 if r.one_in(6) => packet.truncate(r.below(60) as usize),
        _ => {}
    }
    packet.truncate(buffer);
}

pub fn add(r: &mut Random, line: &mut Vec<u8>) {
    let mut packet = packet(r);
    let mut body = Vec::new();
    let count = body_length(r, packet.len());
    put_any(r, count, &mut body);
    let end = packet.len() + field_length(count);
    let buffer = buffer_length(r, packet.len(), end);
    let addition = Addition {
        buffer_length: buffer as u16,
        packet_length: packet_length(r, packet.len(), buffer) as u16,
        field: Field { kind: r.number() as u16, body: &body },
        first: {
            first_octets(r, buffer, &mut packet);
            &packet
        },
    };
    Call::OfExtension(ExtensionCall::Add(addition)).put(line);
}
