//! Fixed lines of extension fields that are added to packets.

use super::tails::{field, tails};
use super::{Lines, T, pairs};
use crate::conformance::call::Call;
use crate::conformance::extension_call::{Addition, ExtensionCall, LONGEST_ADDITION};
use crate::extension::{Field, HEAD, LONGEST, field_length};
use crate::generate::fixed::exchanges::reply;
use crate::generate::packets::octets_of;
use crate::packet::LENGTH;

/// A body of so many octets.
fn body(octets: usize) -> Vec<u8> {
    (0..octets).map(|place| place as u8 | 0x80).collect()
}

fn packet(tail: &[u8]) -> Vec<u8> {
    [octets_of(&reply(T, T)), tail.to_vec()].concat()
}

/// A body of so many octets is added to a packet that has as many octets as are given of it.
fn add(lines: &mut Lines, buffer: usize, packet: &[u8], body_length: usize) {
    add_to(lines, buffer, packet.len(), packet, body_length);
}

fn add_to(lines: &mut Lines, buffer: usize, length: usize, first: &[u8], body_length: usize) {
    let body = body(body_length);
    let addition = Addition {
        buffer_length: buffer as u16,
        packet_length: length as u16,
        field: Field { kind: 0x0204, body: &body },
        first: first.get(..buffer).unwrap_or(first),
    };
    lines.call(Call::OfExtension(ExtensionCall::Add(addition)));
}

/// Bodies of each length, with just enough room and with one octet less.
fn put_bodies(lines: &mut Lines) {
    for octets in 0..=60 {
        let end = LENGTH + field_length(octets);
        add(lines, end, &packet(&[]), octets);
        add(lines, end - 1, &packet(&[]), octets);
    }
}

/// Buffers of each length about a packet and its field, whose other octets are given or not.
fn put_buffers(lines: &mut Lines) {
    for (buffer, octets) in pairs(&(0..=100).collect::<Vec<usize>>(), &[0, 5, 25]) {
        add_to(lines, buffer, LENGTH, &packet(&[]), octets);
        let mut first = packet(&[]);
        first.resize(buffer, 0x77);
        add_to(lines, buffer, LENGTH, &first, octets);
    }
    for buffer in [47, 48, 75, 76, 1024, 1100] {
        add_to(lines, buffer, LENGTH, &[], 3);
    }
}

/// Each length that a packet can be said to have.
fn put_packet_lengths(lines: &mut Lines) {
    for length in (0..=110).chain([255, 256, 1023, 1024, 1100, 1101, 0x8000, 0xFFFF]) {
        add_to(lines, 100, length, &packet(&field(52, 52)), 5);
    }
}

/// Packets of about 1024 octets in the longest buffer.
fn put_long_packets(lines: &mut Lines) {
    for length in [1020, 1021, 1023, 1024, 1025, 1026, 1027, 1028, 1032, 1096, 1100] {
        let mut first = packet(&field((length - LENGTH) / 4 * 4, (length - LENGTH) / 4 * 4));
        first.resize(length, 0xCD);
        add(lines, LONGEST_ADDITION.into(), &first, 5);
    }
}

/// Each tail, with room and without.
fn put_tails(lines: &mut Lines) {
    for tail in tails() {
        let packet = packet(&tail);
        let end = (packet.len() + 28).min(LONGEST_ADDITION.into());
        add(lines, end, &packet, 7);
        add(lines, end - 1, &packet, 7);
    }
}

/// Ends on both sides of 1024 octets, of short packets and of long ones.
fn put_ends(lines: &mut Lines) {
    for length in [LENGTH, 76, 512, 992, 996, 1000, 1020, 1024] {
        let octets = length - LENGTH;
        let packet = packet(&if octets == 0 { Vec::new() } else { field(octets, octets) });
        for end in [1019usize, 1020, 1021, 1024, 1025, 1026, 1028, 1029] {
            let body = end.saturating_sub(length + HEAD);
            [1019, 1020, 1023, 1024, 1025, 1100]
                .into_iter()
                .for_each(|buffer| add(lines, buffer, &packet, body));
        }
    }
}

/// Bodies that no packet has room for, and the longest that one has.
fn put_long_bodies(lines: &mut Lines) {
    let most = LONGEST - LENGTH - HEAD;
    for octets in [most - 4, most - 1, most, most + 1, most + 4, 1099, 1100] {
        [1023, 1024, 1100].into_iter().for_each(|buffer| add(lines, buffer, &packet(&[]), octets));
    }
}

/// Packets that are refused by 7 and that no field could be added to either.
fn put_orders(lines: &mut Lines) {
    let broken = [field(28, 12), vec![0xCD; 5], [field(28, 28), vec![0xCD; 19]].concat()];
    for (tail, octets) in broken.iter().flat_map(|tail| [0, 1100].map(|octets| (tail, octets))) {
        let packet = packet(tail);
        [packet.len(), 1100].into_iter().for_each(|buffer| add(lines, buffer, &packet, octets));
    }
    for length in [0, 47, 101, 1028] {
        add_to(lines, 100, length, &packet(&[]), 1100);
    }
}

pub fn put_lines(lines: &mut Lines) {
    put_bodies(lines);
    put_buffers(lines);
    put_packet_lengths(lines);
    put_long_packets(lines);
    put_tails(lines);
    put_ends(lines);
    put_long_bodies(lines);
    put_orders(lines);
}
